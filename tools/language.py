"""The words of the language, and the forms of its instructions as data.

The lists are compared with the program's own table of words by `scripts/check_tools`. A form is a text of elements with one space
between two:

    < > ( ) [ ]            these marks
    T:SORT  U:SORT  H:..   the name of a type, which later elements call T; SORT says what is asked of it (SORTS)
    S:signature            the name of a signature
    number:SORT            a number: that of a field of T, of a fixed field of T, or of a watchpoint
    value:TYPE             a value of that type
    order:WHERE            a memory order (ORDERS_OF)
    update                 the word of an update
    arguments:LIST         a list of values in brackets, of the types that LIST says
    returned               a value, or a list of values, of the types of the function's results
    destination:WAY        a block with its arguments, taken in the normal way, in the normal way with the instruction's own results
                           among the arguments, or in the exceptional way
    types                  a list of types in < >
    weak? local? exc? wpexc? keep? new swap cases     the parts that are called so in docs/LANGUAGE.md

TYPE is a type that the language writes out, as `int<1>`, or one built from T, U, H and S: `iref<T>`, `field(T)`, `iref<element(T)>`. LIST
is `parameters(S)`, `results(S)`, `results` (of the function that the instruction is in) or `types` (those of the list of types).
"""
import typing

TYPE_WORDS = "int struct array hybrid void ref iref funcref stackref threadref".split()
DIRECTIVES = ".typedef .funcsig .const .global .funcdecl .funcdef".split()
ORDERS = "NOT_ATOMIC RELAXED CONSUME ACQUIRE RELEASE ACQ_REL SEQ_CST".split()
BINARIES = "ADD SUB MUL SDIV SREM UDIV UREM SHL LSHR ASHR AND OR XOR".split()
EQUALITIES = "EQ NE".split()
INEQUALITIES = "SLT SLE SGT SGE ULT ULE UGT UGE".split()
UPDATES = "XCHG ADD SUB AND NAND OR XOR MAX MIN UMAX UMIN".split()
CLAUSES = "VERSION EXC WPEXC KEEPALIVE RET_WITH PASS_VALUES THROW_EXC KILL_OLD THREADLOCAL WEAK NULL".split()
CLIENT_WORDS = "frames kept watch unwatch pop push pass throw rebind exit stop".split()
HAIL_DIRECTIVES = ".new .newhybrid .init".split()

LEFT_OUT_DIRECTIVES = [".expose"]
LEFT_OUT_TYPES = "float double vector weakref uptr ufuncptr tagref64 framecursorref irbuilderref".split()
LEFT_OUT_OPERATIONS = (
    "CCALL ALLOCAHYBRID EXTRACTELEMENT INSERTELEMENT SHUFFLEVECTOR BITCAST PTRCAST FADD FSUB FMUL FDIV FREM FPTRUNC FPEXT FPTOUI "
    "FPTOSI UITOFP SITOFP FTRUE FFALSE FUNO FUEQ FUNE FULT FULE FUGT FUGE FORD FOEQ FONE FOLT FOLE FOGT FOGE").split()

# The orders that each place takes.
ORDERS_OF = {
    "LOAD": "NOT_ATOMIC RELAXED CONSUME ACQUIRE SEQ_CST".split(),
    "STORE": "NOT_ATOMIC RELAXED RELEASE SEQ_CST".split(),
    "update": "RELAXED CONSUME ACQUIRE RELEASE ACQ_REL SEQ_CST".split(),
    "failure": "RELAXED CONSUME ACQUIRE SEQ_CST".split(),
    "FENCE": "ACQUIRE RELEASE ACQ_REL SEQ_CST".split(),
}

# What is asked of a type, in words.
SORTS = {
    "any": "a type",
    "int": "an int",
    "int of one bit": "the type int<1>",
    "index": "an int of at most 64 bits, since it is an index or a number of elements",
    "scalar": "a scalar: an int or a reference",
    "scalar, int unless XCHG": "an int; of XCHG a scalar",
    "sized": "a type that is neither void nor a hybrid",
    "value type": "a type that variables may have: neither void nor a hybrid, and of at most 256 scalars",
    "struct that variables may have": "a struct, of at most 256 scalars",
    "struct or hybrid": "a struct or a hybrid",
    "array": "an array",
    "hybrid": "a hybrid",
    "no hybrid": "a type that is no hybrid",
    "reference to cast": "a ref, an iref or a funcref",
    "reference cast to": "a ref, an iref or a funcref, of the same word as the first type",
    "int, not wider": "an int that is not wider than the first type",
    "int, not narrower": "an int that is not narrower than the first type",
}


class Form(typing.NamedTuple):
    """A form: what follows its word, the types of its results, and whether it ends its block also without EXC."""

    elements: tuple
    gives: tuple = ()
    ends: bool = False


FORMS = {}
COMMON_FORMS = {}


def _add(words, elements, gives="", ends=False, to=FORMS):
    """Takes a form of some words into a table."""
    form = Form(tuple(elements.split(" ")) if elements else (), tuple(gives.split()), ends)
    for word in words if isinstance(words, list) else words.split():
        to[word] = form


_add(BINARIES, "< T:int > value:T value:T exc?", "T")
_add(EQUALITIES, "< T:scalar > value:T value:T", "int<1>")
_add(INEQUALITIES, "< T:int > value:T value:T", "int<1>")
_add("TRUNC", "< T:int U:int,_not_wider > value:T", "U")
_add("ZEXT SEXT", "< T:int U:int,_not_narrower > value:T", "U")
_add("REFCAST", "< T:reference_to_cast U:reference_cast_to > value:T", "U")
_add("SELECT", "< T:int_of_one_bit U:value_type > value:T value:U value:U", "U")
_add("EXTRACTVALUE", "< T:struct_that_variables_may_have number:field > value:T", "field(T)")
_add("INSERTVALUE", "< T:struct_that_variables_may_have number:field > value:T value:field(T)", "T")
_add("BRANCH", "destination:normal", ends=True)
_add("BRANCH2", "value:int<1> destination:normal destination:normal", ends=True)
_add("SWITCH", "< T:int > value:T destination:normal cases", ends=True)
_add("CALL", "< S:signature > value:funcref<S> arguments:parameters(S) exc? keep?", "results(S)")
_add("TAILCALL", "< S:signature > value:funcref<S> arguments:parameters(S)", ends=True)
_add("RET", "returned", ends=True)
_add("THROW", "value:ref<void>", ends=True)
_add("NEW", "< T:no_hybrid > exc?", "ref<T>")
_add("NEWHYBRID", "< H:hybrid T:index > value:T exc?", "ref<H>")
_add("ALLOCA", "< T:no_hybrid > exc?", "iref<T>")
_add("GETIREF", "< T:any > value:ref<T>", "iref<T>")
_add("GETFIELDIREF", "< T:struct_or_hybrid number:fixed_field > value:iref<T>", "iref<field(T)>")
_add("GETELEMIREF", "< T:array U:index > value:iref<T> value:U", "iref<element(T)>")
_add("SHIFTIREF", "< T:sized U:index > value:iref<T> value:U", "iref<T>")
_add("GETVARPARTIREF", "< T:hybrid > value:iref<T>", "iref<element(T)>")
_add("LOAD", "order:LOAD < T:scalar > value:iref<T> exc?", "T")
_add("STORE", "order:STORE < T:scalar > value:iref<T> value:T exc?")
_add("CMPXCHG", "weak? order:update order:failure < T:scalar > value:iref<T> value:T value:T exc?", "T int<1>")
_add("ATOMICRMW", "order:update update < T:scalar,_int_unless_XCHG > value:iref<T> value:T exc?", "T")
_add("FENCE", "order:FENCE")
_add("TRAP", "types exc? keep?", "types")
_add("WATCHPOINT", "number:watchpoint types destination:normal destination:own wpexc? keep?", "types", ends=True)
_add("WPBRANCH", "number:watchpoint destination:normal destination:normal", ends=True)
_add("SWAPSTACK", "value:stackref swap", "types")
_add("NEWTHREAD", "value:stackref local? new exc?", "threadref")
_add("COMMINST", "common")

_add("@uvm.new_stack", "< [ S:signature ] > ( value:funcref<S> )", "stackref", to=COMMON_FORMS)
_add("@uvm.kill_stack", "( value:stackref )", to=COMMON_FORMS)
_add("@uvm.thread_exit", "empty?", ends=True, to=COMMON_FORMS)
_add("@uvm.current_stack", "empty?", "stackref", to=COMMON_FORMS)
_add("@uvm.set_threadlocal", "( value:ref<void> )", to=COMMON_FORMS)
_add("@uvm.get_threadlocal", "empty?", "ref<void>", to=COMMON_FORMS)
_add("@uvm.futex.wait", "< T:int > ( value:iref<T> value:T )", "int<32>", to=COMMON_FORMS)
_add("@uvm.futex.wake", "< T:int > ( value:iref<T> value:int<32> )", "int<32>", to=COMMON_FORMS)
_add("@uvm.futex.wait_timeout", "< T:int > ( value:iref<T> value:T value:int<64> )", "int<32>", to=COMMON_FORMS)

COMMON_NAMES = list(COMMON_FORMS)
OPERATIONS = list(FORMS)
ENDINGS = [word for word, form in FORMS.items() if form.ends]

# Every word that some text of the language has, by what it is.
WORD_LISTS = {
    "types": TYPE_WORDS,
    "directives": DIRECTIVES + HAIL_DIRECTIVES,
    "orders": ORDERS,
    "operations": OPERATIONS,
    "updates": UPDATES,
    "clauses": CLAUSES,
    "common names": COMMON_NAMES,
    "client": CLIENT_WORDS,
    "left out": LEFT_OUT_DIRECTIVES + LEFT_OUT_TYPES + LEFT_OUT_OPERATIONS,
}

# Where one of these limits is passed, the program answers TooMany.
MOST_ITEMS = 16_384
MOST_BLOCKS = 4_096
MOST_INSTRUCTIONS = 4_096
MOST_CASES = 1_024
MOST_MEMBERS = 256
MOST_LEAVES = 4_096
MOST_GLOBAL_LEAVES = 65_536
MOST_TOKEN_BYTES = 65_536
MOST_FILE_BYTES = 1_048_576
WIDTHS = (1, 8, 16, 32, 64, 128)
