"""Turned rules of keys, sizes, names, queues and pipelines."""
from turns import around, change_value, into

TURNS = []
turn = into(TURNS)

# ---- keys, sizes, names


@turn
def a_refused_key_drops_the_earlier_one(settled):
    def key(old, script, label, key):
        try:
            old(script, label, key)
        except settled.Refused:
            script.live(label).key = None
            raise

    around(settled.Script, "key", key)


@turn
def gcm_takes_a_tag_of_5_bytes(settled):
    def begin(old, plan, tree):
        old(plan, tree)
        plan.tags = plan.tags + [5] if plan.word == "gcm" else plan.tags

    around(settled.Plan, "__init__", begin)


@turn
def ccm_takes_a_first_byte_of_8(settled):
    def takes(old, plan, tag, way, iv, *words):
        return old(plan, tag, way, b"\7" + iv[1:] if iv[:1] == b"\x08" else iv, *words)

    around(settled.Plan, "takes", takes)
    change_value(settled, "ccm", lambda key, tag, way, iv, *words: (key, tag, way, bytes([min(iv[0], 7)]) + iv[1:], *words))


@turn
def xts_takes_48_bytes_of_key(settled):
    around(settled.Plan, "takes_key", lambda old, plan, key: old(plan, key) or (plan.word == "xts" and len(key) == 48))

    def value(old, plan, key, *words):
        # no library has its value
        return bytes(16) if plan.word == "xts" and len(key) == 48 else old(plan, key, *words)

    around(settled.Plan, "value", value)


@turn
def a_chain_is_refused(settled):
    def name_read(old, text):
        if text.startswith("cryptd(pcrypt("):
            raise settled.Refused("ENOENT")
        return old(text)

    around(settled, "name_read", name_read)


@turn
def authenc_takes_any_mac(settled):
    def admits(old, word, below):
        return old(word, below) or (word == "authenc" and below[0].kind == "mac")

    around(settled, "admits", admits)


@turn
def a_child_may_be_wrapped(settled):
    around(settled.Registry, "found", lambda old, registry, text, plain: old(registry, text, False))


@turn
def a_name_that_cannot_be_built_is_enoent(settled):
    def look_up(old, registry, text, *plain):
        try:
            return old(registry, text, *plain)
        except settled.Refused:
            raise settled.Refused("ENOENT") from None

    around(settled.Registry, "look_up", look_up)


@turn
def the_priority_of_authenc_is_its_ciphers(settled):
    def instance(old, word, ids, below):
        entry = old(word, ids, below)
        entry.priority = below[1].priority if word == "authenc" else entry.priority
        return entry

    around(settled, "instance", instance)


# ---- queues and pipelines


@turn
def a_queue_takes_one_more(settled):
    def hand_in(old, script, live, asked, backlog):
        live.bound += 1
        try:
            return old(script, live, asked, backlog)
        finally:
            live.bound -= 1

    around(settled.Script, "hand_in", hand_in)


@turn
def nobody_waits_in_the_backlog(settled):
    around(settled.Script, "hand_in", lambda old, script, live, asked, backlog: old(script, live, asked, None))


def change_deliveries(settled, change):
    """Has a drain's callbacks told in another order or number."""

    def deliver(old, script, live):
        before = len(script.out)
        count = old(script, live)
        script.out[before:] = change(live, script.out[before:])
        return count

    around(settled.Script, "deliver", deliver)


@turn
def started_is_told_behind_the_completions(settled):
    change_deliveries(settled, lambda live, told: sorted(told, key=lambda line: line.endswith(" started\n")))


@turn
def pcrypt_hands_out_the_newest_first(settled):
    change_deliveries(settled, lambda live, told: told[::-1] if live.wrap == "pcrypt" else told)


@turn
def an_empty_mask_takes_requests(settled):
    around(settled.Script, "mask", lambda old, script, label, mask: old(script, label, "ffff"))
