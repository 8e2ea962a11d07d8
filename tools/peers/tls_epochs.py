"""Which records of a direction stand under which keys, and what they hold.

The program opens a direction's records under each key in turn, as far as they open. What was sent says whether that is right: a front of
the handshake's messages ended by Finished, or by a key update, and then the data that the peer was given to send."""
from dataclasses import dataclass, field

from peers.script import Script, value_of
from peers.tls_keys import SECRETS, keys_of_1_2, traffic_keys, updated
from peers.tls_suites import Kind
from peers.tls_wire import DATA, FINISHED, HANDSHAKE, KEY_UPDATE, content_of, cut, messages, random_of, records, sealed_records


@dataclass
class Epoch:
    """Records under one key, from number 0 on: how each is cut, and its text."""

    keys: object
    records: list = field(default_factory=list)
    parts: list = field(default_factory=list)
    texts: list = field(default_factory=list)


def label_key(suite, keys):
    """What `key` takes for a direction."""
    if suite.kind is Kind.ENCRYPT_THEN_MAC:
        return bytes.fromhex("08000100") + suite.key_length.to_bytes(4, "big") + keys.mac_key + keys.key
    return keys.key


def tag_of(suite):
    return None if suite.kind is Kind.MAC_THEN_ENCRYPT else suite.tag


def opened_front(program, suite, keys, found):
    """As many records as the program opens under these keys, from the first on."""
    epoch, script = Epoch(keys), Script()
    parts = [cut(suite, keys, number, record) for number, record in enumerate(found)]
    script.alloc("t", suite.kind.value, label_key(suite, keys), tag_of(suite))
    for part in parts:
        script.dec("t", part.iv, part.aad, part.sealed, b"")
    answers = program.answers(script.text())[len(script.wanted) - len(parts) :]
    for record, part, answer in zip(found, parts, answers):
        text = value_of(answer)
        if text is None:
            break
        epoch.records.append(record)
        epoch.parts.append(part)
        epoch.texts.append(text)
    return epoch


def key_series(suite, secrets, side, streams):
    """The keys of a direction in their order: handshake, data and each update; or one under TLS 1.2."""
    if not secrets:
        return
    if suite.version == "1.2":
        client, server = (random_of(records(streams[who])) for who in ("client", "server"))
        yield keys_of_1_2(secrets["CLIENT_RANDOM"], client, server, suite)[side]
        return
    handshake, data = (secrets[label] for label in SECRETS[side])
    yield traffic_keys(handshake, suite)
    while True:
        yield traffic_keys(data, suite)
        data = updated(data, suite)


def epochs_of(program, suite, talk, side):
    """The epochs, and the records that no key opens."""
    left, found = sealed_records(records(talk.streams[side]), suite.version), []
    for keys in key_series(suite, talk.secrets, side, talk.streams):
        epoch = opened_front(program, suite, keys, left) if left else Epoch(keys)
        if not epoch.records:
            break
        found.append(epoch)
        left = left[len(epoch.records) :]
    return found, left


def is_as_sent(suite, epochs, said):
    """Whether the handshake's messages are whole, each epoch but the last ends as it must, and the data is what was given to send."""
    data, ends = b"", []
    for epoch in epochs:
        contents = [content_of(suite, record, text) for record, text in zip(epoch.records, epoch.texts)]
        types = messages(b"".join(octets for kind, octets in contents if kind == HANDSHAKE))
        data += b"".join(octets for kind, octets in contents if kind == DATA)
        if types is None:
            return False
        ends.append(types[-1] if types else None)
    wanted = [FINISHED] + [KEY_UPDATE] * (len(epochs) - 2)
    return data == said and ends[: len(wanted)] == wanted
