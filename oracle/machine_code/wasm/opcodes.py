"""The table of WebAssembly's instructions that the two modules use, as in the specification (release 2.0). All others
are refused.

A line has an instruction's code, its name, its immediates in the file, and the types that it pops and pushes.
Instructions of control flow and variables have no types here, since these depend on the context: see validator.py."""
import collections

TABLE = """
00    unreachable                  .        .
02    block                        block    .
03    loop                         block    .
04    if                           block    .
0b    end                          .        .
0c    br                           label    .
0d    br_if                        label    .
0e    br_table                     labels   .
0f    return                       .        .
10    call                         function .
1a    drop                         .        .
1b    select                       .        .
20    local.get                    local    .
21    local.set                    local    .
22    local.tee                    local    .
23    global.get                   global   .
24    global.set                   global   .
28    i32.load                     bytes4   i32 -> i32
29    i64.load                     bytes8   i32 -> i64
2d    i32.load8_u                  bytes1   i32 -> i32
2f    i32.load16_u                 bytes2   i32 -> i32
31    i64.load8_u                  bytes1   i32 -> i64
35    i64.load32_u                 bytes4   i32 -> i64
36    i32.store                    bytes4   i32 i32 ->
37    i64.store                    bytes8   i32 i64 ->
3a    i32.store8                   bytes1   i32 i32 ->
3b    i32.store16                  bytes2   i32 i32 ->
41    i32.const                    i32      -> i32
42    i64.const                    i64      -> i64
45    i32.eqz                      .        i32 -> i32
47    i32.ne                       .        i32 i32 -> i32
4f    i32.ge_u                     .        i32 i32 -> i32
50    i64.eqz                      .        i64 -> i32
51    i64.eq                       .        i64 i64 -> i32
52    i64.ne                       .        i64 i64 -> i32
53    i64.lt_s                     .        i64 i64 -> i32
54    i64.lt_u                     .        i64 i64 -> i32
56    i64.gt_u                     .        i64 i64 -> i32
57    i64.le_s                     .        i64 i64 -> i32
58    i64.le_u                     .        i64 i64 -> i32
59    i64.ge_s                     .        i64 i64 -> i32
5a    i64.ge_u                     .        i64 i64 -> i32
6a    i32.add                      .        i32 i32 -> i32
6b    i32.sub                      .        i32 i32 -> i32
6c    i32.mul                      .        i32 i32 -> i32
70    i32.rem_u                    .        i32 i32 -> i32
71    i32.and                      .        i32 i32 -> i32
72    i32.or                       .        i32 i32 -> i32
73    i32.xor                      .        i32 i32 -> i32
74    i32.shl                      .        i32 i32 -> i32
76    i32.shr_u                    .        i32 i32 -> i32
77    i32.rotl                     .        i32 i32 -> i32
78    i32.rotr                     .        i32 i32 -> i32
7c    i64.add                      .        i64 i64 -> i64
7d    i64.sub                      .        i64 i64 -> i64
7e    i64.mul                      .        i64 i64 -> i64
82    i64.rem_u                    .        i64 i64 -> i64
83    i64.and                      .        i64 i64 -> i64
84    i64.or                       .        i64 i64 -> i64
85    i64.xor                      .        i64 i64 -> i64
86    i64.shl                      .        i64 i64 -> i64
88    i64.shr_u                    .        i64 i64 -> i64
89    i64.rotl                     .        i64 i64 -> i64
a7    i32.wrap_i64                 .        i64 -> i32
ad    i64.extend_i32_u             .        i32 -> i64
fc.0a memory.copy                  zeros2   i32 i32 i32 ->
fc.0b memory.fill                  zeros1   i32 i32 i32 ->
fd.00 v128.load                    bytes16  i32 -> v128
fd.0b v128.store                   bytes16  i32 v128 ->
fd.0c v128.const                   v128     -> v128
fd.0d i8x16.shuffle                lanes    v128 v128 -> v128
fd.11 i32x4.splat                  .        i32 -> v128
fd.12 i64x2.splat                  .        i64 -> v128
fd.1c i32x4.replace_lane           lane4    v128 i32 -> v128
fd.1d i64x2.extract_lane           lane2    v128 -> i64
fd.1e i64x2.replace_lane           lane2    v128 i64 -> v128
fd.51 v128.xor                     .        v128 v128 -> v128
fd.53 v128.any_true                .        v128 -> i32
fd.c9 i64x2.extend_low_i32x4_u     .        v128 -> v128
fd.cd i64x2.shr_u                  .        v128 i32 -> v128
fd.ce i64x2.add                    .        v128 v128 -> v128
fd.d1 i64x2.sub                    .        v128 v128 -> v128
fd.d5 i64x2.mul                    .        v128 v128 -> v128
fd.d7 i64x2.ne                     .        v128 v128 -> v128
fd.de i64x2.extmul_low_i32x4_u     .        v128 v128 -> v128
fd.df i64x2.extmul_high_i32x4_u    .        v128 v128 -> v128
"""

WIDTHS = {"i32": 32, "i64": 64, "v128": 128}
TYPES = {0x7F: 32, 0x7E: 64, 0x7B: 128}  # code of a type -> its bits

# `prefix` is None if the code is one byte; `takes` and `leaves` are None if the types depend on the context.
Opcode = collections.namedtuple("Opcode", "name prefix code behind takes leaves")


def opcode(line):
    code, name, behind, types = line.split(None, 3)
    *prefix, code = (int(part, 16) for part in code.split("."))
    if types == ".":
        takes = leaves = None
    else:
        takes, leaves = (tuple(WIDTHS[word] for word in side.split()) for side in types.split("->"))
    return Opcode(name, prefix[0] if prefix else None, code, "" if behind == "." else behind, takes, leaves)


OPCODES = [opcode(line) for line in TABLE.strip().splitlines()]
BY_NAME = {x.name: x for x in OPCODES}
BY_CODE = {(x.prefix, x.code): x for x in OPCODES}
PREFIXES = {x.prefix for x in OPCODES} - {None}
