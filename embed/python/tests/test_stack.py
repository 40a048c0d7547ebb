"""How much stack the engine takes: a call in a thread whose stack is memory of ours, which is looked at afterwards."""
import ctypes
import mmap
import pathlib
import unittest

from flashfill import engine

EXAMPLES = pathlib.Path(__file__).resolve().parents[3] / "examples"
PAGE = 4096


def taken(request):
    """How many bytes of its stack a call writes to, in whole pages."""
    room = ctypes.create_string_buffer(2 * len(request) + 65536)
    stack = mmap.mmap(-1, engine.STACK)
    memory = (ctypes.c_char * engine.STACK).from_buffer(stack)
    system, attributes, thread = ctypes.CDLL(None), ctypes.create_string_buffer(256), ctypes.c_ulong()
    start = ctypes.CFUNCTYPE(ctypes.c_void_p, ctypes.c_void_p)
    call = start(lambda _: engine.library().fill_engine(request, len(request), room, len(room)) and None)
    system.pthread_attr_init(attributes)
    system.pthread_attr_setstack(attributes, ctypes.c_void_p(ctypes.addressof(memory)), ctypes.c_size_t(engine.STACK))
    assert system.pthread_create(ctypes.byref(thread), attributes, call, None) == 0
    system.pthread_join(thread, None)
    at = next(it for it in range(0, engine.STACK, PAGE) if stack[it : it + PAGE].strip(b"\0"))
    del memory
    stack.close()
    return engine.STACK - at


def requests():
    files = {it.name: it.read_bytes() for it in EXAMPLES.glob("*.csv")}
    yield from (engine.request_of("flashfill", ["replay", it], files) for it in files if it.endswith("-session.csv"))
    months = ["--table=months=months.csv", "--key=months:1", "--depth=3"]
    for words in (["people.csv", "--to=Label"], ["sales.csv", "--to=Month", *months], ["long.csv", "--to=c"]):
        long = "".join(f"{'xy-1 Z' * it},{'A.b' * it},{'y-1 Z' * it if it < 5 else ''}\n" for it in range(1, 40))
        yield engine.request_of("fillcsv", [*words, "--state", "--explain", "--save-rule=rule"], {**files, "long.csv": f"a,b,c\n{long}".encode()})
    rule = (EXAMPLES / "label.rule").read_bytes()
    people = "Name,City\n" + "".join(f"Ada N{it},{'x' * it}\n" for it in range(3000))
    yield engine.request_of("fillcsv", ["--rule=rule"], {"rule": rule, "-": people.encode()})


class Stack(unittest.TestCase):
    def test_a_quarter_of_what_a_call_gets_is_enough(self):
        needs = [taken(it) for it in requests()]
        self.assertLess(max(needs), engine.STACK // 4)
        self.assertGreater(min(needs), PAGE)


if __name__ == "__main__":
    unittest.main()
