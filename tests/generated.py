#!/usr/bin/env python3
"""Header texts that python/generate does not understand are told, and never passed over: each of these changes must make it fail. Run it by
tests/gate/python."""
import importlib.machinery
import importlib.util
import pathlib
import sys
import tempfile

ROOT = pathlib.Path(__file__).resolve().parent.parent
loader = importlib.machinery.SourceFileLoader("generate", str(ROOT / "python" / "generate"))
generate = importlib.util.module_from_spec(importlib.util.spec_from_loader("generate", loader))
sys.dont_write_bytecode = True
loader.exec_module(generate)
TEXT = (ROOT / "include" / "oatmarten.h").read_text()
CHANGES = [
    ("    int32_t face;   /*", "    int32_t corner[3];\n    int32_t face;   /*"),  # an array
    ("    uint32_t nx;\n    uint32_t ny;", "    uint32_t nx, ny;"),
    ("    uint32_t nx;", "    uint32_t  nx;"),
    ("OAT_END_P = 1", "OAT_END_P = 0x1"),
    ("OAT_END_P = 1", "OAT_END_P"),
    ("OAT_END_P = 1", "OAT_END_P = 1 << 0"),
    ("#define OAT_VENUE_HEAD 11", "#define OAT_VENUE_HEAD (4 + 7)"),
    ("#define OAT_VENUE_HEAD 11", "#define OAT_VENUE_HEAD 0x0b"),
    ("#define OAT_VENUE_HEAD 11", "#define  OAT_VENUE_HEAD 11"),
    ("oat_cell q, int32_t *out, size_t room);", "oat_cell q, int32_t *out);"),  # a pointer without its length
    ("oat_cell q, int32_t *out, size_t room);", "oat_cell q, size_t room, int32_t *out);"),
    ("uint32_t oat_revision(void);", "double oat_revision(void);"),
    ("uint32_t oat_revision(void);", "uint32_t oat_revision(uint32_t which);"),
    ("uint32_t oat_revision(void);", "const char *oat_revision(void);"),
    ("uint32_t oat_revision(void);", "extern uint32_t oat_revision (void);"),
    ("oat_verdict oat_mark(", "oat_cell oat_mark("),  # an answer without `said`
]


def main():
    for k, (old, new) in enumerate(CHANGES):
        if old not in TEXT:
            sys.exit("generated: the header has no '%s'" % old)
        with tempfile.TemporaryDirectory() as work:
            generate.HEADER = pathlib.Path(work) / "oatmarten.h"
            generate.HEADER.write_text(TEXT.replace(old, new, 1))
            try:
                generate.made()
            except (SystemExit, TypeError, KeyError):
                continue
        sys.exit("generated: '%s' was passed over" % new)
    print("generated: %d header texts that are not understood are told" % len(CHANGES))


main()
