#!/usr/bin/env python3
# SPDX-License-Identifier: MIT OR Apache-2.0
"""Writes a profile that pprof reads, of the kernel's part of what perf recorded:

    perf record -a -g -- sleep 10
    perf script -F comm,ip | python3 pprof.py > kernel.pb.gz
    pprof -top kernel.pb.gz

Needs protobuf (Debian: python3-protobuf)."""

import collections
import gzip
import sys

from google.protobuf import descriptor_pb2, descriptor_pool, message_factory

import kernel_stacks

# the fields of pprof's profile.proto that are written here; several of one kind are [..]
MESSAGES = {
    "ValueType": {"type": (1, "int64"), "unit": (2, "int64")},
    "Label": {"key": (1, "int64"), "str": (2, "int64")},
    "Sample": {
        "location_id": (1, ["uint64"]),
        "value": (2, ["int64"]),
        "label": (3, ["Label"]),
    },
    "Mapping": {"id": (1, "uint64"), "filename": (5, "int64"), "has_functions": (7, "bool")},
    "Line": {"function_id": (1, "uint64")},
    "Location": {
        "id": (1, "uint64"),
        "mapping_id": (2, "uint64"),
        "address": (3, "uint64"),
        "line": (4, ["Line"]),
    },
    "Function": {
        "id": (1, "uint64"),
        "name": (2, "int64"),
        "system_name": (3, "int64"),
        "filename": (4, "int64"),
    },
    "Profile": {
        "sample_type": (1, ["ValueType"]),
        "sample": (2, ["Sample"]),
        "mapping": (3, ["Mapping"]),
        "location": (4, ["Location"]),
        "function": (5, ["Function"]),
        "string_table": (6, ["string"]),
    },
}


def profile_class() -> type:
    """The class of profiles."""
    field = descriptor_pb2.FieldDescriptorProto
    package = "perftools.profiles"
    file = descriptor_pb2.FileDescriptorProto(name="profile.proto", package=package)
    file.syntax = "proto3"
    for name, fields in MESSAGES.items():
        message = file.message_type.add(name=name)
        for of, (number, kind) in fields.items():
            label = field.LABEL_REPEATED if isinstance(kind, list) else field.LABEL_OPTIONAL
            kind = kind[0] if isinstance(kind, list) else kind
            one = message.field.add(name=of, number=number, label=label)
            if kind in MESSAGES:
                one.type, one.type_name = field.TYPE_MESSAGE, f".{package}.{kind}"
            else:
                one.type = getattr(field, f"TYPE_{kind.upper()}")
    pool = descriptor_pool.DescriptorPool()
    pool.Add(file)
    profile = pool.FindMessageTypeByName(f"{package}.Profile")
    get = getattr(message_factory, "GetMessageClass", None)
    return get(profile) if get else message_factory.MessageFactory(pool).GetPrototype(profile)


class Numbers(dict):
    """A number for each thing that is asked for, from the first on by rising number."""

    def __init__(self, first: int) -> None:
        super().__init__()
        self._first = first

    def __missing__(self, thing):
        self[thing] = len(self) + self._first
        return self[thing]


def main() -> None:
    stacks, names = kernel_stacks.asked_for(__doc__)
    profile = profile_class()()
    texts, functions, locations = Numbers(0), Numbers(1), Numbers(1)
    texts[""]  # is number 0
    profile.sample_type.add(type=texts["samples"], unit=texts["count"])
    profile.mapping.add(id=1, filename=texts["[kernel.kallsyms]"], has_functions=True)
    for stack, count in sorted(collections.Counter(stacks).items()):
        places = [locations[addr] for addr in stack.addresses]
        sample = profile.sample.add(location_id=places, value=[count])
        sample.label.add(key=texts["comm"], str=texts[stack.command])
    for addr, number in locations.items():
        location = profile.location.add(id=number, mapping_id=1, address=addr)
        location.line.add(function_id=functions[names[addr]])
    for (name, module), number in functions.items():
        filename = "" if module == "-" else f"[{module}]"
        text = texts[name]
        profile.function.add(id=number, name=text, system_name=text, filename=texts[filename])
    profile.string_table.extend(texts)
    sys.stdout.buffer.write(gzip.compress(profile.SerializeToString(), mtime=0))


if __name__ == "__main__":
    main()
