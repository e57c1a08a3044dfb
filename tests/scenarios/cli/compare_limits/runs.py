"""Stamps at the limits: trees of depth 256, levels up to the greatest u64, and one more of each."""
import json

GREATEST = 2**64 - 1


def stamp_with_id(depth):
    """The stamp whose id is so deep: one half of each pair owns nothing."""
    return f"({'(' * depth}1{',0)' * depth},0)"


def stamp_with_event(depth):
    """The stamp whose event is so deep: one half of each fork has no update."""
    return f"(1,{'(0,' * depth}1{',0)' * depth})"


def run(first, second, **wanted):
    print(json.dumps({"args": ["compare", first, second], **wanted}))


def run_at_fault(first, second, fault):
    run(first, second, error=f"panad: {fault}\n", status=1)


for stamp in (stamp_with_id, stamp_with_event):
    run(stamp(256), stamp(256), output="Equal\n")
    run_at_fault(stamp(257), "(1,0)", "first stamp: TooDeep")
    run_at_fault("(1,0)", stamp(257), "second stamp: TooDeep")
run(stamp_with_event(255), stamp_with_event(256), output="Newer\n")
run(f"(1,{GREATEST - 1})", f"(1,{GREATEST})", output="Older\n")
run(f"(1,(1,{GREATEST - 1},0))", f"(1,{GREATEST})", output="Older\n")
run_at_fault(f"(1,{GREATEST + 1})", "(1,0)", "first stamp: TooLarge")
run_at_fault("(1,0)", f"(1,(1,{GREATEST},0))", "second stamp: TooLarge")
