"""Names inside the headers that are read: functions with loops, their variables, and types of states. Symbolic
execution finds loops and accumulators by them. A wrong name can only make it fail."""
from typing import Any, NamedTuple


class Names(NamedTuple):
    """Names inside a header. {} is a width, 32 or 64, or 64 or 128."""

    state: str  # the type of a state of XXH{}
    state_3: str
    plain_loops: tuple  # functions with the loop over stripes of XXH32 and XXH64, in one-shots
    update_loops: tuple  # the same, in updates
    plain_length: str  # parameter that is a number in an update of a buffered stripe
    plain_variables: tuple  # the four accumulators, if they aren't in an array
    plain_array: str  # the array of accumulators
    long: str  # the function for more than 240 bytes: input, length, secret, its length
    blocks: str  # function with the loop over blocks
    block_array: str  # its array of accumulators
    stripes: str  # function with the loop over the stripes of a block
    stripe_count: str  # its parameters: number of stripes, input, secret
    input: str
    secret: str
    array: str  # the accumulators during that loop
    update_blocks: tuple  # functions with the loop over blocks in an update
    default_secret: str


REFERENCE = Names(
    state="%struct.XXH_NAMESPACEXXH{}_state_s",
    state_3="%struct.XXH_NAMESPACEXXH3_state_s",
    plain_loops=("@XXH{}_endian_align", "@XXH{}_consumeLong"),
    update_loops=("@XXH{}_consumeLong",),
    plain_length="%len",
    plain_variables=("%v1", "%v2", "%v3", "%v4"),
    plain_array="%acc",
    long="@XXH3_hashLong_{}b_internal",
    blocks="@XXH3_hashLong_internal_loop",
    block_array="%acc",
    stripes="@XXH3_accumulate",
    stripe_count="%nbStripes",
    input="%input",
    secret="%secret",
    array="%acc",
    update_blocks=("@XXH3_update", "@XXH3_consumeStripes"),
    default_secret="@XXH3_kSecret",
)
OURS = Names(
    state="%struct.XXH{}_state_s",
    state_3="%struct.XXH3_state_s",
    plain_loops=("@xxh{}_accumulate",),
    update_loops=("@xxh{}_accumulate",),
    plain_length="%count",
    plain_variables=("%a", "%b", "%c", "%d"),
    plain_array="",
    long="@xxh3_{}_long",
    blocks="@xxh3_accumulate_all",
    block_array="%accumulators",
    stripes="@xxh3_accumulate_stripes",
    stripe_count="%count",
    input="%stripe",
    secret="%key",
    array="%local",
    update_blocks=("@xxh3_accumulate_blocks",),
    default_secret="@xxh3_default_secret",
)


def names_of(module: Any) -> "Names":
    return OURS if OURS.stripes in module.functions else REFERENCE
