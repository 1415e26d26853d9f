# A session over a program with symbols, whose tables are keyed by the library's hash.
# Debian: 12 13
# packages: gdb gcc libc6-dev
cat > program.c <<'END'
struct point { int across; double up; };
static int twice(int value) { return 2 * value; }
int main(void) { struct point p = { twice(21), 0.5 }; return p.across != 42; }
END
gcc -g -O0 program.c -o program
gdb -nx -batch -ex 'info line twice' -ex 'ptype struct point' -ex 'info scope main' -ex 'disassemble /s twice' program
