"""Why a bundle is refused: how blocks begin and end, where they lead, and memory orders."""
import language
from language import ORDERS_OF
from refusal import in_list


def entry_parameters(refusal):
    """EntryParameters: what the first block takes, and what the function takes."""
    block = refusal.function.blocks[0]
    name = refusal.function.signature.text
    parameters = in_list(f"<{kind.text}> {variable.text}" for kind, variable in block.parameters)
    refusal.say("found", f"{block.name.text}{parameters}" + (f" [{block.handler.text}]" if block.handler else ""))
    signature = f"{name} = {refusal.signature_in_words(name)}, {refusal.defined(name)}"
    refusal.say("expected", f"the parameters of {refusal.function.name.text}, by the signature {signature}"
                + ("; and no handler" if block.handler else ""))
    types = [token.text for token in refusal.bundle.signatures[name].parameters] if name in refusal.bundle.signatures else []
    if len(types) != len(block.parameters):
        written = " ".join(f"<{kind}> %p{n}" for n, kind in enumerate(types))
        refusal.say("hint", f"`{block.name.text}({written}):`")


def no_ending(refusal):
    """NoEnding: the last instruction, and what would end the block."""
    block = next((block for block in refusal.function.blocks if block.name.start == refusal.place), None)
    if block is None:
        return
    last = block.instructions[-1] if block.instructions else None
    refusal.say("found", f"`{refusal.bundle.text_of(last)}` as its last instruction, {refusal.line(last.start)}" if last else
                "a block without an instruction")
    refusal.say("expected", f"one of {' '.join(language.ENDINGS)}, an instruction with EXC, SWAPSTACK with KILL_OLD or @uvm.thread_exit")
    following = next((other for other in refusal.function.blocks if other.name.start > refusal.place), None)
    if following:
        arguments = " ".join(name.text for _, name in following.parameters)
        refusal.say("hint", f"a block does not go on into the next one: `BRANCH {following.name.text}({arguments})` goes there")
    else:
        refusal.say("hint", "a function ends by RET: `RET ()` where it returns nothing")


def after_ending(refusal):
    """AfterEnding: which instruction ended the block."""
    block = refusal.instruction.block if refusal.instruction else None
    ending = block and next((instruction for instruction in block.instructions if instruction.ends_block), None)
    if ending is None:
        return
    refusal.say("found", f"`{refusal.bundle.text_of(ending)}`, {refusal.line(ending.start)}, ends the block"
             + (", since an EXC says where it goes on" if ending.has_exc else ""))
    way = next((part for part in ending.destinations()), None)
    refusal.say("hint", f"what follows belongs into the block {way.token.text}" if ending.has_exc and way else
                "begin a block here, as `%next():`, and branch to it")


def bad_order(refusal):
    """BadOrder: the orders that the form takes."""
    if refusal.part is None or refusal.part.kind != "order":
        return
    word = refusal.instruction.word
    which = {"failure": f"{word} as its second order",
             "update": f"{word} as its first order" if word == "CMPXCHG" else word}.get(refusal.part.asked, word)
    refusal.say("found", refusal.token.text)
    refusal.say("expected", f"one of {' '.join(ORDERS_OF[refusal.part.asked])}, for {which}")
    meant = {("STORE", "ACQUIRE"): "RELEASE", ("LOAD", "RELEASE"): "ACQUIRE", ("STORE", "CONSUME"): "RELEASE",
             ("LOAD", "ACQ_REL"): "ACQUIRE",
             ("STORE", "ACQ_REL"): "RELEASE"}.get((word, refusal.token.text))
    refusal.say("hint", meant and f"a {word} that takes part in passing data has {meant}")


def bad_destination(refusal):
    """BadDestination: a block with a handler."""
    block = refusal.function.block(refusal.token.text) if refusal.function else None
    if block is None or block.handler is None:
        return
    refusal.say("found", f"{block.name.text}, {refusal.line(block.name)}, has the handler {block.handler.text}")
    refusal.say("expected", f"a block without a handler, since no exception comes this way of {refusal.instruction.word}")
    refusal.say("hint", "a handler stands at a block to which only the second destination of EXC, or WPEXC, goes; leave out "
                f"`[{block.handler.text}]`")
