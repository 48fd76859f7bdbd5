#!/usr/bin/env bash
# Boots a kernel of Debian in QEMU, without hardware of its own, and records it by latchsym-record while
# modules come to each other's places. Each function that ran in them is named by its time as the kernel
# named it then, and by one listing alone some are named wrongly. In the same boot a log, a check and a
# lookup are tried; its panic is named on the host. Takes a minute. Needs QEMU for x86-64, busybox, cpio
# and a kernel for the cloud, and is skipped where one is missing. KERNEL may be a folder into which the
# kernel's package was unpacked.
set -euo pipefail
. "$(dirname "$0")/lib/program.sh"
. "$top/tests/lib/tools.sh"
has 'command -v qemu-system-x86_64' qemu-system-x86 || exit 0
has 'busybox --list | grep -qx insmod && ! ldd "$(command -v busybox)"' busybox-static || exit 0
has 'command -v cpio' cpio || exit 0
is_there='compgen -G "${KERNEL:-}/boot/vmlinuz-*-cloud-amd64"'
# (a kernel is unpacked, and not installed)
if ! eval "$is_there" >/dev/null && [ "${INSTALL:-}" = yes ]; then
    package=$(apt-cache depends linux-image-cloud-amd64 2>/dev/null | sed -n 's/.*Depends: \(linux-image-\)/\1/p' | head -n 1)
    (cd "$work" && timeout 120 apt-get -qq download "$package" && dpkg-deb -x linux-image-*.deb kernel) >/dev/null 2>&1 || true
    KERNEL=$work/kernel
fi
INSTALL='' has "$is_there" linux-image-cloud-amd64 || exit 0
build latchsym

image=$(compgen -G "${KERNEL:-}/boot/vmlinuz-*-cloud-amd64" | sort -V | tail -n 1)
release=${image##*/vmlinuz-}
root=$work/root
mkdir -p "$root"/{bin,modules,lib64}
cp "$(command -v busybox)" "$program" "$top/scripts/latchsym-record" "$root/bin"
mv "$root/bin/${program##*/}" "$root/bin/latchsym" 2>/dev/null || true
install -m 755 "$top/tests/kernel/init" "$root/init"
# (the program's shared libraries, if it has some)
ldd "$program" 2>/dev/null | grep -oE '/[^ ]+' | while read -r library; do install -D "$library" "$root$library"; done || true
for module in virtio_ring virtio virtio_pci_modern_dev virtio_pci_legacy_dev virtio_pci virtio_blk zsmalloc zram loop brd dummy tun; do
    found=$(find "${KERNEL:-}/lib/modules/$release" -name "$module.ko*" | head -n 1)
    case $found in
        *.ko) cp "$found" "$root/modules" ;;
        *.xz) xz -dc "$found" >"$root/modules/$module.ko" ;;
        *) stop "there is no module $module of $release" ;;
    esac
done
(cd "$root" && find . | cpio --quiet -o -H newc | gzip -1) >"$work/initrd"

truncate -s 64M "$work/disk"
timeout "${SECONDS_OF_BOOT:-220}" qemu-system-x86_64 -accel tcg,thread=multi -cpu max -m 512 -smp 2 -display none -monitor none -no-reboot \
    -kernel "$image" -initrd "$work/initrd" -append 'console=ttyS0 panic=-1 quiet loglevel=7' -serial "file:$work/console" \
    -drive "file=$work/disk,format=raw,if=virtio" </dev/null >"$work/qemu" 2>&1 ||
    stop "the kernel was not booted to its end: $(tail -n 3 "$work/qemu" "$work/console")"
mkdir "$work/out"
tar -C "$work/out" -xf "$work/disk" || stop "it has left nothing: $(tail -n 5 "$work/console")"
python3 "$top/tests/kernel/named.py" "$program" "$work/out" "$work/console"
