"""Compiles a proved module for WebAssembly a second time, in the form that engines run fastest:

    assembly/webassembly.py MODULE OUT [--vectors]

MODULE is a folder that `annotated` has kept. The toolchain's clang compiles its text, with the same arguments as
before, and four differences. Only the first changes steps of a computation:

- The product of two words of 64 bits is computed from four products of their halves, instead of a call that returns it
  in memory.
- The bodies of exports, which are separate functions, and the functions in INLINED, CALLS_INLINED and OF_TRAIT are
  inlined. Elsewhere they are calls because of the registers that a function has to save, and WebAssembly has none.
  APART stays a function.
- An opaque line that copies a number separates the loop of XXH64 from the product that follows it. Without it clang
  merges that product with the loop's last one, and engines keep four more words in the loop.
- With --vectors each function has the feature simd128. The toolchain itself compiles for WebAssembly without."""
import os
import re
import shutil
import subprocess
import sys

# Options of clang that name the toolchain's own target, its location, or its input and output.
OWN = ('--target=', '--sysroot=', '-march=', '-mcpu=', '-mllvm -no-x86-call-frame-opt', '-Werror', '-x ', '-o ', '-c')
TARGET = 'wasm64-unknown-unknown'
# The body that wasm-opt inlines into its export, since an export into which clang inlines writes the stack's end back.
# It is compiled for size, and so smaller than the loop of XXH64, which must stay a call.
APART = 'rattle::export twox_xxh32'
# Functions that are always inlined, and calls that are, by caller and callee: for inputs of up to 240 bytes with no
# secret.
INLINED = re.compile(
    r'^(define internal .*@"(?:rattle::export [^"]*|twox_core::width_128::oneshot_(?:65_to_128|129_to_240))"\(.*) '
    r'(#\d+) \{$',
    re.M,
)
CALLS_INLINED = [('twox_core::width_64::oneshot_with_secret', 'twox_core::width_64::impl_129_to_240_bytes')]
# A kernel's default method of its trait: a call without an inline hint from the toolchain.
OF_TRAIT = re.compile(
    r'^(define internal void @"twox_core::xxhash3::large::halves4::ImplVector::accumulate_four_stripes"'
    r'\(.*) #\d+ \{$',
    re.M,
)
# The function that multiplies, and its body by halves, the steps of `product_by_halves` in crates/symbolic_rules. An
# opaque copy in the middle hides the product from clang, which would make a call of it.
PRODUCT = re.compile(
    r'^(define internal noundef i128 @"twox_core::xxhash3::mixing::full_product"'
    r'\(i64 noundef %a0, i64 noundef %a1\) .*\{\n)(?s:.*?)^}\n',
    re.M,
)
BY_HALVES = '''start:
  %left.low = and i64 %a0, 4294967295
  %left.high = lshr i64 %a0, 32
  %right.low = and i64 %a1, 4294967295
  %right.high = lshr i64 %a1, 32
  %low.low = mul i64 %left.low, %right.low
  %low.high = mul i64 %left.low, %right.high
  %high.low = mul i64 %left.high, %right.low
  %high.high = mul i64 %left.high, %right.high
  %carried = lshr i64 %low.low, 32
  %first = add i64 %high.low, %carried
  %middle = call i64 asm "", "=r,0"(i64 %first)
  %middle.low = and i64 %middle, 4294967295
  %middle.high = lshr i64 %middle, 32
  %second = add i64 %middle.low, %low.high
  %second.high = lshr i64 %second, 32
  %sum = add i64 %high.high, %middle.high
  %high = add i64 %sum, %second.high
  %low = mul i64 %a0, %a1
  %low.wide = zext i64 %low to i128
  %high.wide = zext i64 %high to i128
  %shifted = shl i128 %high.wide, 64
  %product = or i128 %shifted, %low.wide
  ret i128 %product
}
'''
# The function that takes an accumulator from the loop, up to its first line.
MERGE = re.compile(
    r'^define internal noundef i64 @"twox_plain::xxhash64::rounds::merge_accumulator"'
    r'\(i64 noundef %a0, i64 noundef %a1\) .*\{\nstart:\n',
    re.M,
)
# Copies the accumulator, by an assembly of no instruction.
HANDED_ON = '  %a1 = call i64 asm "", "=r,0"(i64 %from_loop)\n'


def clang_of_kit() -> str:
    kit = os.path.dirname(os.path.dirname(os.path.realpath(shutil.which('rt') or sys.exit('webassembly.py: no rt'))))
    return os.path.join(kit, 'toolchain', 'bin', 'clang')


def text_of(path):
    with open(path) as file:
        return file.read()


def arguments_of(folder):
    """clang's options for the module, except those for its target."""
    args = re.sub(r'^(-mllvm|-Xclang|-x|-o)\n', r'\1 ', text_of(os.path.join(folder, 'args')), flags=re.M).splitlines()
    common = [word for word in args if not word.startswith(OWN) and not word.endswith(('.bc', '.ll'))]
    return [part for word in common for part in word.split(' ')]


def stop(why):
    sys.exit(f'assembly/webassembly.py: {why}')


def with_product_by_halves(module):
    """The module with that body in the function."""
    module, count = PRODUCT.subn(lambda function: function[1] + BY_HALVES, module)
    if count != 1:
        stop(f'this module has {count} functions that multiply words of 64 bits')
    return module


def with_loop_apart(module):
    """The module with the accumulator renamed in that function, and the opaque copy giving it its old name."""
    found = MERGE.findall(module)
    if len(found) != 1:
        stop(f'this module has {len(found)} functions that take an accumulator of XXH64')
    return MERGE.sub(lambda head: head[0].replace('%a1', '%from_loop') + HANDED_ON, module)


def with_functions_inlined(module):
    """The module with those functions marked as inlined instead of never inlined, except one."""
    groups = dict(re.findall(r'^attributes (#\d+) = { (noinline|alwaysinline) nounwind ', module, re.M))
    always = {word: group for group, word in groups.items()}.get('alwaysinline')
    if not always or {groups.get(group) for _, group in INLINED.findall(module)} != {'noinline'}:
        stop('this module says otherwise which functions are inlined')

    def inlined(head):
        return f'{head[1]} {head[2]} optsize {{' if f'@"{APART}"(' in head[1] else f'{head[1]} {always} {{'

    module, count = INLINED.subn(inlined, module)
    if count != module.count('"wasm-export-name"=') + 2 or module.count(' optsize {') != 1:
        stop(f'this module has {count} functions that are to be inlined')
    module, count = OF_TRAIT.subn(rf'\1 {always} {{', module)
    if count != 1:
        stop(f'this module has {count} functions that stand for a body of a trait')
    return module


def with_calls_inlined(module):
    """The module with those calls marked in the same way."""
    for caller, callee in CALLS_INLINED:
        head = re.search(rf'^define internal .*@"{caller}"\(.*\{{$', module, re.M) or stop(
            f'this module has no {caller}'
        )
        start, end = head.end(), module.index('\n}\n', head.end())
        call = rf'^(  %\S+ = call .*@"{callee}"\(.*\))$'
        body, count = re.subn(call, r'\1 alwaysinline', module[start:end], flags=re.M)
        if count != 1:
            stop(f'{caller} has {count} calls that are to be inlined')
        module = module[:start] + body + module[end:]
    return module


def with_vectors(module):
    """The module with functions for a processor with vectors."""
    module, count = re.subn(
        r'^(attributes #\d+ = .*"target-cpu"="lime1")', r'\1 "target-features"="+simd128"', module, flags=re.M
    )
    if not count or len(re.findall(r'"target-(?:cpu|features)"', module)) != 2 * count:
        stop('the functions of this module name another processor, or features')
    return module


def compile_module(folder, out, *flags):
    module, vectors = text_of(os.path.join(folder, 'module.ll')), []
    for change in with_functions_inlined, with_calls_inlined, with_product_by_halves, with_loop_apart:
        module = change(module)
    if flags:
        module, vectors = with_vectors(module), ['-msimd128']
    args = [f'--target={TARGET}', '-mcpu=lime1', *vectors, *arguments_of(folder)]
    subprocess.run([clang_of_kit(), *args, '-w', '-c', '-x', 'ir', '-', '-o', out], input=module, text=True, check=True)


def main():
    if len(sys.argv) not in (3, 4) or sys.argv[3:] not in ([], ['--vectors']):
        sys.exit(__doc__)
    compile_module(*sys.argv[1:])
