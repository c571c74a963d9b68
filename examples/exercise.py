#!/usr/bin/env python3
"""Computes the summary of `exercise N` by the formats alone (docs/FORMATS.md), in the world of failing_runs.py, and prints it:

    examples/exercise.py 1000

With the Python package cryptography AES-GCM is OpenSSL's, and 10,000 messages take seconds; without it that of failing_runs.py is used."""
import hashlib
import sys

import failing_runs
from failing_runs import World, compact

try:
    from cryptography.hazmat.primitives.ciphers.aead import AESGCM

    def seal(key, nonce, additional, plain):
        sealed = AESGCM(key).encrypt(nonce, plain, additional)
        return sealed[:-16], sealed[-16:]

    def open_sealed(key, nonce, additional, sealed, tag):
        return AESGCM(key).decrypt(nonce, sealed + tag, additional)

    failing_runs.seal, failing_runs.open_sealed = seal, open_sealed
except ImportError:
    pass

SEALING = {
    "A": {"request": ["000102030405060708090a0b0c0d0e0f", "0001020304050607"], "response": ["101112131415161718191a1b1c1d1e1f", "1011121314151617"]},
    "B": {"request": ["202122232425262728292a2b2c2d2e2f", "2021222324252627"], "response": ["303132333435363738393a3b3c3d3e3f", "3031323334353637"]},
}
ELEMENTS = [
    {"ieLoc": "URI_PARAM", "ieType": "UEID", "reqIe": "supi"},
    {"ieLoc": "BODY", "ieType": "KEY_MATERIAL", "reqIe": "/s"},
    {"ieLoc": "BODY", "ieType": "NONSENSITIVE", "reqIe": "/t", "isModifiableByIpx": {"ipx-a": True}},
]
MAPPING = {"IeList": ELEMENTS, "apiMethod": "POST", "apiSignature": "/n/v1/u/{supi}"}
POLICY = {"apiIeMappingList": [MAPPING], "dataTypeEncPolicy": ["UEID", "KEY_MATERIAL"]}
PLMN, CONTEXT, IPX = {"A": "00101", "B": "00102"}, {"A": "00000000000000a1", "B": "00000000000000b1"}, {"A": "ipx-a", "B": "ipx-b"}


class Indexed(World):
    """A world that finds what was delivered, and records of a kind, without going over all records."""

    def __init__(self):
        super().__init__({})
        self.kinds, self.deliveries = {}, {}

    def put(self, record):
        super().put(record)
        at = record["node"], record["id"]
        self.kinds.setdefault((record["is"], *at), []).append(record)
        if record["is"] == "delivered":
            self.deliveries.setdefault((*at, record["message"]), len(self.keeper.records) - 1)

    def find(self, kind, event):
        found = self.kinds.get((kind, event["node"], event["id"]), [])
        return found[-1:] if kind == "sent" else found

    def delivered(self, at, message):
        return self.deliveries.get((at["node"], at["id"], message))


def keys_of(node):
    return {kind: dict(zip(["key", "salt"], pair)) for kind, pair in SEALING[node].items()}


def opening():
    for node in "AB":
        yield {"do": "node", "node": node, "plmn": PLMN[node]}
    for node, peer in ["AB", "BA"]:
        ids = {"node": node, "id": CONTEXT[node], "peer_node": peer, "peer": CONTEXT[peer], "plmn": PLMN[peer]}
        yield {"do": "context", **ids, "own_ipx": [IPX[node]], "peer_ipx": [IPX[peer]], "policy": POLICY, "suite": "A128GCM"}
    for node, peer in ["AB", "BA"]:
        yield {"do": "keys", "node": node, "id": CONTEXT[node], "send": keys_of(node), "receive": keys_of(peer)}


def turns(count):
    x, wire = 1, 0
    for number in range(count):
        x = (1103515245 * x + 12345) % 2**31
        drawn, wire = x // 65536, wire + 1
        line = {"authority": "x.example", "method": "POST", "path": f"/n/v1/u/imsi-{number:015d}", "protocolVersion": "HTTP/2", "scheme": "https"}
        body = {"i": number, "s": f"secret {drawn}", "t": drawn}
        yield {"do": "send", "node": "A", "id": CONTEXT["A"], "message": {"requestLine": line, "body": body}}
        if drawn % 3 == 0:
            yield {"do": "pass", "ipx": "ipx-a", "wire": wire, "operations": [{"op": "replace", "path": "/payload/2/value", "value": drawn + 1}]}
            wire += 1
        for _ in range(2 if drawn % 5 == 0 else 1):
            yield {"do": "deliver", "node": "B", "wire": wire}


def main():
    count = int(sys.argv[1])
    world, digest, answers, delivered, refused = Indexed(), hashlib.sha256(), 0, 0, 0
    for events in opening(), turns(count):
        for event in events:
            answers += 1
            answer = world.answer(answers, compact(event))
            digest.update(answer)
            delivered += answer.startswith(b'{"delivered"')
            refused += b'"refused":' in answer
    print(f"messages {count}\nanswers {answers}\ndelivered {delivered}\nrefused {refused}\nsha256 {digest.hexdigest()}")


if __name__ == "__main__":
    main()
