"""What the kernel's registry does otherwise by choice, seen in the rows of a machine that has made nothing yet."""
from judge import DIFFER

REMOVED = "a better algorithm of a child's name: the kernel takes what stands on the old one off the list, here it stays"
BEST_CHILD = "a child under a wrapper: taken by the kernel where it is best, never here"

STANDS_ON_CTR = ("rfc3686(ctr(aes))", "rfc3686(ctr(aes-generic))")
OVER_PLAIN = ("gcm(aes)", "gcm_base(ctr(aes-generic),ghash-generic)")
OVER_A_WRAPPER = ("gcm(aes)", "gcm_base(cryptd(ctr(aes-generic)),ghash-generic)")
ASKS = [
    "ask skcipher rfc3686(ctr(aes)) none none enc - - -",
    "rows",
    "ask skcipher cryptd(ctr(aes-generic)) none none enc - - -",
    "rows",
    "ask aead gcm(aes) none none enc - - -",
    "rows",
    # with what it made
    "unload cryptd",
    "load cryptd",
]
LINES = ["alloc a rfc3686(ctr(aes))", "alloc b cryptd(ctr(aes-generic))", "alloc c gcm(aes)", "list"]


def judged(answers, rows_here):
    """By the answers to ASKS and the rows that the program lists after LINES."""
    before, wrapped, after = (rows_of(answers[at]) for at in (1, 3, 5))
    removed = STANDS_ON_CTR in before and STANDS_ON_CTR not in wrapped
    stays = STANDS_ON_CTR in rows_here
    yield (REMOVED if removed and stays else DIFFER), f"rows of the kernel {before} and then {wrapped}, here {rows_here}"
    over = OVER_A_WRAPPER in after and OVER_PLAIN not in after
    plain = OVER_PLAIN in rows_here and OVER_A_WRAPPER not in rows_here
    yield (BEST_CHILD if over and plain else DIFFER), f"rows of the kernel {after}, here {rows_here}"


def rows_of(answer):
    """Names with drivers."""
    return {tuple(row.split(":")[:2]) for row in answer.split()}
