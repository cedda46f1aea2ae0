#!/usr/bin/env python3
"""Shows that `retarget.py` refuses what it can't answer for, and nothing else. `web/build.sh` runs it first."""
import unittest

import retarget

PLAIN = """
declare noundef i64 @read(i32 noundef, ptr noundef, i64 noundef)
declare void @llvm.memmove.p0.p0.i64(ptr, ptr, i64, i1 immarg)
declare { i64, i64 } @rattle_alloc(i64 noundef, i64 noundef)
@"a table" = private constant [2 x ptr] [ptr @main, ptr @"f<T>"]
define internal void @"f<T>"(ptr %0) {
  %2 = tail call i64 @read(i32 0, ptr %0, i64 7)
  call void @llvm.memmove.p0.p0.i64(ptr %0, ptr %0, i64 %2, i1 false)
  ret void
}
define i32 @main() {
  %1 = call { i64, i64 } @rattle_alloc(i64 8, i64 8)
  ret i32 0
}
"""
REFUSED = {
    "unknown foreign function: getpid": "declare i32 @getpid()",
    "unknown foreign function: a name": 'declare void @"a name"(i32)',
    "intrinsic of x86: llvm.x86.rdtsc": "declare i64 @llvm.x86.rdtsc()",
    "foreign variable: @environ": "@environ = external global ptr",
    "number of 80 bits: ": "define x86_fp80 @wide(x86_fp80 %0) {",
    "inline assembly: ": '  call void asm sideeffect "nop", ""()',
    "inline assembly: module asm": 'module asm "nop"',
    "indirect call: ": "  %3 = tail call fastcc { i64, i64 } %2(ptr %0)",
    "indirect call: call": "  call void %f(ptr @main)",
    "indirect call: %3 = invoke": "  %3 = invoke i32 %f(ptr getelementptr (i8, ptr @x, i64 8))",
    'indirect call: call void %"': '  call void %"a name"(i32 1)',
    "indirect call: musttail": "  musttail call void inttoptr (i64 5 to ptr)()",
}


class Refusals(unittest.TestCase):
    def test_a_known_module_passes(self):
        self.assertEqual(retarget.refusals(PLAIN, retarget.PROGRAM), [])

    def test_what_is_unknown_is_refused(self):
        for why, line in REFUSED.items():
            with self.subTest(line):
                found = retarget.refusals(PLAIN + line + "\n", retarget.PROGRAM)
                self.assertEqual(len(found), 1)
                self.assertTrue(found[0].startswith(why), found)

    def test_what_main_never_reaches_is_dropped(self):
        thread = 'declare i32 @fork()\ndefine internal void @"+threads::start"() {\n  %1 = call i32 @fork()\n  ret void\n}\n'
        self.assertEqual(retarget.reachable(PLAIN + thread, retarget.PROGRAM), PLAIN)
        from_table = PLAIN.replace("[ptr @main,", '[ptr @"+threads::start",') + thread
        self.assertEqual(retarget.reachable(from_table, retarget.PROGRAM), from_table)

    def test_a_fence_of_the_compiler_is_no_instruction(self):
        fence = '  call void asm sideeffect "", "~{memory}"()\n'
        self.assertEqual(retarget.FENCE.sub("", PLAIN.replace("  ret void\n", fence + "  ret void\n")), PLAIN)
        other = PLAIN + '  call void asm sideeffect "nop", "~{memory}"()\n'
        self.assertEqual(retarget.FENCE.sub("", other), other)

    def test_a_module_has_a_main(self):
        self.assertEqual(retarget.refusals(PLAIN.replace("@main()", "@other()"), retarget.PROGRAM), ["no main"])

    def test_the_door_calls_nothing_but_the_heap(self):
        door = PLAIN.replace("@main(", "@realm_node_turn(").replace("ptr @main", "ptr @realm_node_turn")
        self.assertEqual(retarget.refusals(door, retarget.DOOR), ["unknown foreign function: read", "no realm_node_free", "no realm_node_new"])

    def test_a_table_is_dropped_and_nothing_else(self):
        front, memory, table, fill = b"\0asm\1\0\0\0", b"\x05\x03\x01\x04\x01", b"\x04\x04\x01\x70\x00\x01", b"\x09\x81\x00\xff"
        self.assertEqual(retarget.without_table(front + table + memory + fill), front + memory)


if __name__ == "__main__":
    unittest.main()
