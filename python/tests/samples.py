# SPDX-License-Identifier: MIT OR Apache-2.0
"""Listings that tests share."""

MODULES = b"ext4 8192 1 - Live 0xffffffffc0000000\n"
SYMBOLS = (
    b"ffffffff81000000 T _stext\n"
    b"ffffffff81000100 T do_one\n"
    b"ffffffff81002000 T _end\n"
    b"ffffffffc0000010 t ext4_a\t[ext4]\n"
    b"ffffffffc0000040 t ext4_b\t[ext4]\n"
)
EXT4_A = 0xFFFFFFFFC0000018
DO_ONE = 0xFFFFFFFF81000108
