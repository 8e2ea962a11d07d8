"""Turned rules of the modes and their tags."""
import hashlib
import hmac

from turns import around, change_value, into

TURNS = []
turn = into(TURNS)

# ---- modes


def wrap_counter(settled, size):
    """CTR whose counter has so many bytes, the rest of its block standing still."""

    def crypt(old, key, mode, text, sealing):
        if not isinstance(mode, settled.modes.CTR):
            return old(key, mode, text, sealing)
        kept, count = mode.nonce[:-size], int.from_bytes(mode.nonce[-size:], "big")
        before = 16 * (256**size - count)
        made = old(key, mode, text[:before], True)
        if len(text) > before:
            made += old(key, settled.modes.CTR(kept + bytes(size)), text[before:], True)
        return made

    around(settled, "crypt", crypt)


@turn
def a_counter_of_32_bits(settled):
    wrap_counter(settled, 4)


@turn
def a_counter_of_64_bits(settled):
    wrap_counter(settled, 8)


@turn
def stealing_turned(settled):
    def crypt(old, key, mode, text, sealing):
        made, rest = old(key, mode, text, sealing), len(text) % 16
        if not isinstance(mode, settled.modes.XTS) or not rest:
            return made
        return made[: -16 - rest] + made[-rest:] + made[-16 - rest : -rest]

    around(settled, "crypt", crypt)


@turn
def the_nonce_of_ccm_a_byte_shorter(settled):
    change_value(settled, "ccm", lambda key, tag, way, iv, *words: (key, tag, way, bytes([min(iv[0] + 1, 7)]) + iv[1:], *words))


@turn
def the_key_of_a_mac_cut_and_not_hashed(settled):
    change_value(settled, "hmac", lambda key, *words: (key[:64], *words))


@turn
def parts_joined_in_the_wrong_order(settled):
    around(settled, "bytes_of", lambda old, token: old("".join(reversed(token.split("|")))))


@turn
def rfc3686_counts_from_0(settled):
    def crypt(old, key, mode, text, sealing):
        if isinstance(mode, settled.modes.CTR) and mode.nonce.endswith(b"\0\0\0\1"):
            mode = settled.modes.CTR(mode.nonce[:-1] + b"\0")
        return old(key, mode, text, sealing)

    around(settled, "crypt", crypt)


# ---- tags


@turn
def a_tag_off_by_one_byte(settled):
    def sealed_gcm(old, key, tag, iv, aad, text):
        made = old(key, 16, iv, aad, text)
        return made[: len(text)] + (made[len(text) + 1 :] + made[len(text) : len(text) + 1])[:tag]

    around(settled, "sealed_gcm", sealed_gcm)


@turn
def a_wrong_tag_opens(settled):
    settled.opened_gcm = lambda key, tag, iv, aad, text: settled.sealed_gcm(key, 0, iv, aad, text[: len(text) - tag])


@turn
def the_iv_of_rfc4106_authenticated_twice(settled):
    def value(old, plan, key, tag, way, iv, aad, text):
        if plan.word == "rfc4106" and len(aad) in (16, 20):
            plan = settled.Plan(("gcm", []))
            key, iv = key[:-4], key[-4:] + iv
        return old(plan, key, tag, way, iv, aad, text)

    around(settled.Plan, "value", value)


@turn
def rfc4106_takes_12_associated_bytes(settled):
    def filled(key, tag, way, iv, aad, text):
        return key, tag, way, iv, aad + bytes(4) if len(aad) == 12 else aad, text

    change_value(settled, "rfc4106", filled)


@turn
def associated_bytes_of_authenc_left_out(settled):
    change_value(settled, "authenc", lambda key, tag, way, iv, aad, text: (key, tag, way, iv, b"", text))


@turn
def authenc_asks_for_whole_blocks_before_the_tag(settled):
    def authentic(old, plan, key, tag, sealing, iv, aad, text):
        if plan.cipher.word == "cbc" and not sealing and (len(text) - tag) % 16:
            raise settled.Refused("EINVAL")
        return old(plan, key, tag, sealing, iv, aad, text)

    around(settled.Plan, "authentic", authentic)


@turn
def the_tag_of_authenc_from_its_end(settled):
    def authentic(old, plan, key, tag, sealing, iv, aad, text):
        if not sealing or tag == 32:
            return old(plan, key, tag, sealing, iv, aad, text)
        made = plan.cipher.value(settled.keys_in(key)[1], 0, "enc", iv, b"", text)
        return made + hmac.new(settled.keys_in(key)[0], aad + made, hashlib.sha256).digest()[-tag:]

    around(settled.Plan, "authentic", authentic)
