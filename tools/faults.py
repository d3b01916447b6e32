"""What each fault and each undefined case means, in one sentence."""

# Faults of a refusal, in any of the files.
FAULTS = {
    "BadByte": "a byte that begins no token, or a number that is spelled in no way",
    "BadName": "a `@`, `%`, `$` or `.` with no name after it",
    "NumberTooLarge": "a number of 2^128 or more; in a schedule one of 2^32 or more",
    "TooLong": "a token of more than 65,536 bytes",
    "Unexpected": "a token, or the end of the text, with which no text of this kind goes on",
    "NotInProfile": "a word that belongs there, and that this machine leaves out",
    "TooMany": "an element of a list after the last one that may stand in it",
    "Duplicate": "a name that is defined already",
    "Unknown": "a name that is used, and that nothing defines",
    "WrongKind": "a global name of another sort than is asked where it stands",
    "WrongArgument": "a number or a type that may not stand in that type",
    "EndlessType": "a type that is a part of itself",
    "TooManyLeaves": "a type, or the globals together, with too many scalars",
    "WrongShape": "a constant that is no value of its type",
    "OutOfWidth": "a number that its width does not hold",
    "NotNullable": "a `NULL` of a type that is no reference",
    "BadSignature": "a signature that is not the one that is asked, or that has a type which variables may not have",
    "EntryParameters": "a first block that does not take what its function takes, or that has a handler",
    "OperandType": "a type that the form does not accept, or a value of another type than is asked",
    "ResultCount": "more or fewer results than the instruction gives",
    "ArgumentCount": "more or fewer values than are asked",
    "ArgumentType": "a value in a list that has another type than is asked",
    "NotLocal": "a local name that is no variable of its block so far",
    "NoEnding": "a block whose last instruction does not end it",
    "AfterEnding": "an instruction after one that ends the block",
    "BadOrder": "a memory order that the form does not accept",
    "BadDestination": "a block with a handler, in a place to which no exception goes",
    "BadIndex": "a number that no field has, or that is too large for a watchpoint",
    "WrongType": "a hybrid for `.new`, or no hybrid for `.newhybrid`; an index of what has no parts; a source that does not fit",
    "OutOfRange": "an index that no part has, or a number that its width does not hold",
    "HeapFull": "more cells than are left",
    "BadToken": "what is no decimal number",
    "Lex": "a byte in the line of an event that is no space and no printable character of ASCII",
    "BadNumber": "an event's number that is not the next, or a number that is out of range",
    "OtherType": "a name that an earlier file gives to another type",
    "OtherSignature": "a name that an earlier file gives to another signature, or a function that it gives another one",
    "NoBody": "a function that is only declared",
}

# Faults that mean something else where they are said of the entry of a run.
ENTRY_FAULTS = {
    "Unknown": "no function has that name",
    "BadSignature": "the function has parameters, and the entry of a run has none",
    "NoBody": "the function is only declared, and has no body to run",
}

# Cases of `undefined CASE ..`.
CASES = {
    "DivideByZero": "a division or a remainder by 0, at an instruction without EXC",
    "NullAccess": "an access through NULL, or an internal reference that is computed from NULL",
    "OutOfRange": "an internal reference that leads outside of its object, or an access at the object's end",
    "BadCast": "a REFCAST of a reference to something that does not fit the new type",
    "DeadCell": "an access of a cell of an ALLOCA whose frame has ended",
    "DataRace": "two threads access one cell, at least one of them writes, at least one access is NOT_ATOMIC, and the earlier access does "
                "not happen before the later one",
    "StackNotReady": "a stack that is entered or killed is NULL, dead, or running on a thread",
    "StackTypes": "a stack is entered with values of other types than it waits for",
    "Uncaught": "no frame of the stack has a destination for the exception",
    "NullCall": "a NULL function is called, or given a stack",
    "NoBody": "a function that is only declared is called, given a stack, or pushed by the client",
    "ClientMisuse": "the client's entry names a frame or a kept value that does not exist, or enters what is no stack",
}
