"""Random small programs of three threads, with random schedules."""
HEAD = """.typedef @i1 = int<1> .typedef @i32 = int<32> .typedef @i64 = int<64>
.funcsig @none = () -> ()
.const @n0 <@i64> = 0 .const @n1 <@i64> = 1 .const @n2 <@i64> = 2 .const @two <@i32> = 2
.global @x <@i64> .global @y <@i64>
"""
MAIN = """.funcdef @main VERSION %v <@none> {
%e():
  %s = COMMINST @uvm.new_stack <[@none]> (@f1)
  %q = COMMINST @uvm.new_stack <[@none]> (@f2)
  %t = NEWTHREAD %s PASS_VALUES<> ()
  %u = NEWTHREAD %q PASS_VALUES<> ()
  TAILCALL <@none> @f0 ()
}
"""
LOADS = "RELAXED RELAXED ACQUIRE CONSUME SEQ_CST NOT_ATOMIC".split()
STORES = "RELAXED RELAXED RELEASE SEQ_CST NOT_ATOMIC".split()
UPDATES = "RELAXED ACQUIRE RELEASE ACQ_REL SEQ_CST".split()
FAILURES = "RELAXED ACQUIRE SEQ_CST".split()
FENCES = "ACQUIRE RELEASE ACQ_REL SEQ_CST".split()
OPERATIONS = "ADD SUB XOR MAX XCHG NAND".split()


def instruction(source, number, names):
    """A random instruction; `names` are the variables of type @i64 so far, to which its result is added."""
    kind = source.choice("load load load store store update compare compare fence compute wait wake".split())
    cell, value, other = source.choice(("@x", "@y")), source.choice(names), source.choice(names)
    result = f"%r{number}"
    if kind in ("load", "update", "compare", "compute"):
        names.append(result)
    order = source.choice(UPDATES)
    return {
        "load": f"{result} = LOAD {source.choice(LOADS)} <@i64> {cell}",
        "store": f"STORE {source.choice(STORES)} <@i64> {cell} {value}",
        "update": f"{result} = ATOMICRMW {order} {source.choice(OPERATIONS)} <@i64> {cell} {value}",
        "compare": f"({result} %k{number}) = CMPXCHG {source.choice(('', 'WEAK '))}{order} {source.choice(FAILURES)} <@i64> {cell} {value} {other}",
        "fence": f"FENCE {source.choice(FENCES)}",
        "compute": f"{result} = {source.choice(('ADD', 'MUL', 'SHL', 'SREM'))} <@i64> {value} @n2",
        "wait": f"%w{number} = COMMINST @uvm.futex.wait_timeout <@i64> ({cell} {value} @n1)",
        "wake": f"%w{number} = COMMINST @uvm.futex.wake <@i64> ({cell} @two)",
    }[kind]


def block(source, count):
    """Some random instructions, and a variable of them."""
    names = ["@n0", "@n1", "@n2"]
    lines = [instruction(source, number, names) for number in range(count)]
    return "".join(f"  {line}\n" for line in lines), names[-1]


def function(source, name):
    """A function that branches once on a value."""
    text, last = block(source, source.randrange(1, 5))
    parts = [f".funcdef {name} VERSION %v <@none> {{\n%e():\n{text}  %is = EQ <@i64> {last} @n1\n  BRANCH2 %is %a() %b()\n"]
    for label in ("%a", "%b"):
        parts.append(f"{label}():\n{block(source, source.randrange(0, 4))[0]}  RET ()\n")
    return "".join(parts) + "}\n"


def program(source):
    """The text of a program."""
    return HEAD + "".join(function(source, f"@f{number}") for number in range(3)) + MAIN


def schedule(source):
    """The numbers of a schedule, which may end before the run."""
    return [source.randrange(6) for _ in range(source.choice((0, 10, 30, 60)))]
