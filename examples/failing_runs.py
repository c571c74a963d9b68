#!/usr/bin/env python3
"""Computes the stored run of crates/failing_runs from its scripts, by the formats alone (docs/FORMATS.md), and compares it:

    examples/failing_runs.py             says which lines differ, and then ends with 1
    examples/failing_runs.py --print     prints the tables

It asks no toolchain: AES-GCM is computed here, from FIPS 197 and SP 800-38D. It knows what these scripts need: requests without a query,
and of operations `replace` and `add` behind the last item."""
import base64
import functools
import hashlib
import hmac
import json
import os
import sys

TOP = os.path.dirname(os.path.dirname(os.path.abspath(__file__)))
CRATE = os.path.join(TOP, "crates", "failing_runs")
NARROW = 400
TYPES = ["UEID", "LOCATION", "KEY_MATERIAL", "AUTHENTICATION_MATERIAL", "AUTHORIZATION_TOKEN", "OTHER", "NONSENSITIVE"]


def compact(value):
    return json.dumps(value, sort_keys=True, separators=(",", ":"))


def base64url(data):
    return base64.urlsafe_b64encode(data).rstrip(b"=").decode()


def from_base64url(text):
    return base64.urlsafe_b64decode(text + "=" * (-len(text) % 4))


# AES-128 (FIPS 197) and GCM (SP 800-38D).

def double(byte):
    return (byte << 1) ^ (0x11B if byte & 0x80 else 0)


def times(left, right):
    product = 0
    while right:
        product ^= left if right & 1 else 0
        left, right = double(left), right >> 1
    return product


def substitution():
    table = []
    for byte in range(256):
        inverse = next((other for other in range(256) if times(byte, other) == 1), 0)
        bits = inverse
        for turn in range(1, 5):
            bits ^= (inverse << turn | inverse >> (8 - turn)) & 0xFF
        table.append(bits ^ 0x63)
    return table


SBOX = substitution()


@functools.lru_cache(None)
def round_keys(key):
    words = [list(key[i : i + 4]) for i in range(0, 16, 4)]
    constant = 1
    for i in range(4, 44):
        word = words[-1]
        if i % 4 == 0:
            word = [SBOX[byte] for byte in word[1:] + word[:1]]
            word[0] ^= constant
            constant = double(constant)
        words.append([a ^ b for a, b in zip(words[i - 4], word)])
    return [sum(words[i : i + 4], []) for i in range(0, 44, 4)]


def encrypt_block(key, block):
    keys = round_keys(key)
    state = [a ^ b for a, b in zip(block, keys[0])]
    for number in range(1, 11):
        state = [SBOX[byte] for byte in state]
        state = [state[(i + 4 * (i % 4)) % 16] for i in range(16)]
        if number < 10:
            mixed = []
            for c in range(0, 16, 4):
                a = state[c : c + 4]
                mixed += [double(a[r]) ^ double(a[(r + 1) % 4]) ^ a[(r + 1) % 4] ^ a[(r + 2) % 4] ^ a[(r + 3) % 4] for r in range(4)]
            state = mixed
        state = [a ^ b for a, b in zip(state, keys[number])]
    return bytes(state)


def ghash(subkey, data):
    h, y = int.from_bytes(subkey, "big"), 0
    for i in range(0, len(data), 16):
        x, product, v = y ^ int.from_bytes(data[i : i + 16], "big"), 0, h
        for bit in range(127, -1, -1):
            product ^= v if x >> bit & 1 else 0
            v = v >> 1 ^ (0xE1 << 120 if v & 1 else 0)
        y = product
    return y.to_bytes(16, "big")


def padded(data):
    return data + bytes(-len(data) % 16)


def cipher(key, nonce, data):
    stream = b"".join(encrypt_block(key, nonce + (2 + i).to_bytes(4, "big")) for i in range((len(data) + 15) // 16))
    return bytes(a ^ b for a, b in zip(data, stream))


def tag_of(key, nonce, additional, sealed):
    lengths = (8 * len(additional)).to_bytes(8, "big") + (8 * len(sealed)).to_bytes(8, "big")
    hashed = ghash(encrypt_block(key, bytes(16)), padded(additional) + padded(sealed) + lengths)
    return bytes(a ^ b for a, b in zip(hashed, encrypt_block(key, nonce + b"\0\0\0\1")))


@functools.lru_cache(None)
def seal(key, nonce, additional, plain):
    sealed = cipher(key, nonce, plain)
    return sealed, tag_of(key, nonce, additional, sealed)


@functools.lru_cache(None)
def open_sealed(key, nonce, additional, sealed, tag):
    assert tag_of(key, nonce, additional, sealed) == tag
    return cipher(key, nonce, sealed)


# Messages and blocks.

def mapping_of(policy, message):
    line = message["requestLine"]
    path = line["path"].split("/")[1:]
    for number, mapping in enumerate(policy["apiIeMappingList"]):
        template = mapping["apiSignature"].split("/")[1:]
        fits = len(template) == len(path) and all(part == own or part[:1] == "{" for part, own in zip(template, path))
        if mapping["apiMethod"] == line["method"] and fits:
            return number
    return None


def covered(policy, number, place):
    """The names at this place that are secret."""
    elements = [] if number is None else policy["apiIeMappingList"][number]["IeList"]
    return [e["reqIe"] for e in elements if e["ieLoc"] == place and "reqIe" in e and e["ieType"] in policy["dataTypeEncPolicy"]]


def leaves(value, path):
    if isinstance(value, dict) and value:
        for name in sorted(value):
            yield from leaves(value[name], f"{path}/{name}")
    else:
        yield path, value


def split(policy, message):
    """The block without metaData, and the values. Here what is secret in a body is always a leaf."""
    number, values, block = mapping_of(policy, message), [], {"requestLine": dict(message["requestLine"])}

    def hole(value):
        values.append(value)
        return {"encBlockIndex": len(values) - 1}

    if number is not None:
        template = policy["apiIeMappingList"][number]["apiSignature"].split("/")[1:]
        path = block["requestLine"]["path"].split("/")[1:]
        for i, part in enumerate(template):
            if part[1:-1] in covered(policy, number, "URI_PARAM") and part[:1] == "{":
                path[i] = "{encBlockIndex=%d}" % hole(path[i])["encBlockIndex"]
        block["requestLine"]["path"] = "".join("/" + part for part in path)
    secret = covered(policy, number, "HEADER")
    headers = [{"header": h["header"], "value": hole(h["value"]) if h["header"] in secret else h["value"]} for h in message.get("headers", [])]
    if headers:
        block["headers"] = headers
    secret = covered(policy, number, "BODY")
    if "body" in message:
        items = [(path, hole(value) if path in secret else value) for path, value in leaves(message["body"], "")]
        block["payload"] = [{"iePath": path, "ieValueLocation": "BODY", "value": value} for path, value in items]
    return block, values


def filled(value, values):
    return values[value["encBlockIndex"]] if isinstance(value, dict) and "encBlockIndex" in value else value


def rebuild(block, values):
    message = {"requestLine": dict(block["requestLine"])}
    for i, value in enumerate(values):
        message["requestLine"]["path"] = message["requestLine"]["path"].replace("{encBlockIndex=%d}" % i, str(value))
    if "headers" in block:
        message["headers"] = [{"header": h["header"], "value": filled(h["value"], values)} for h in block["headers"]]
    for item in block.get("payload", []):
        body = message.setdefault("body", {})
        *names, last = item["iePath"].split("/")[1:]
        for name in names:
            body = body.setdefault(name, {})
        body[last] = filled(item["value"], values)
    return message


def patched(block, operation):
    *names, last = operation["path"].split("/")[1:]
    block = json.loads(compact(block))
    node = block
    for name in names:
        node = node[int(name) if isinstance(node, list) else name]
    if operation["op"] == "add" and last == "-":
        node.append(operation["value"])
    else:
        assert operation["op"] == "replace" and last in node
        node[last] = operation["value"]
    return block


# The world of a script.

class Refused(Exception):
    def __init__(self, number, name, **members):
        self.answer = {"refused": number, "name": name, **members}


class Stopped(Exception):
    """A run that ends with a status."""


class Keeper:
    def __init__(self, fails, keeps):
        self.fails, self.keeps, self.calls, self.records = fails, keeps, 0, []

    def is_call(self):
        self.calls += 1
        return self.calls - 1 != self.fails

    def load(self):
        """Whether all records could be read: a call for each, and one that finds the end."""
        return all(self.is_call() for _ in range(len(self.records) + 1))

    def put(self, record):
        works = self.is_call()
        if works or self.keeps:
            self.records.append(record)
        return works


class World:
    def __init__(self, fails):
        self.keeper = Keeper(fails.get("keeper"), fails.get("keeps"))
        self.fails, self.calls = fails, {"signer": 0, "verifier": 0}
        self.nodes, self.wire, self.fresh = {}, [], True
        if not self.keeper.load():
            raise Stopped("KeeperFault")

    # Records.

    def refresh(self):
        if not self.fresh and not self.keeper.load():
            raise Refused(34, "KEEPER")
        self.fresh = True

    def put(self, record):
        if not self.keeper.put(record):
            self.fresh = False
            raise Refused(34, "KEEPER")

    def find(self, kind, event):
        return [r for r in self.keeper.records if (r["is"], r["node"], r["id"]) == (kind, event["node"], event["id"])]

    def delivered(self, at, message):
        """The number of the record by which the message was delivered."""
        for number, record in enumerate(self.keeper.records):
            if (record["is"], record["node"], record["id"], record.get("message")) == ("delivered", at["node"], at["id"], message):
                return number
        return None

    def context(self, event, refusals):
        """The context and its keys, or a refusal: that there is none, or that it has no keys."""
        if not self.find("opened", event):
            raise refusals[0]
        if not self.find("keyed", event):
            raise refusals[1]
        return self.find("opened", event)[0], self.find("keyed", event)[0]

    def fails_now(self, what):
        self.calls[what] += 1
        return self.calls[what] - 1 == self.fails.get(what)

    # Events.

    def node(self, event):
        self.nodes[event["node"]] = event["plmn"]
        return {"ok": "node"}

    def context_event(self, event):
        self.refresh()
        if self.find("opened", event):
            raise Refused(44, "CONTEXT_USED")
        names = "node id peer_node peer plmn suite own_ipx peer_ipx".split()
        policy = {"apiIeMappingList": event["policy"]["apiIeMappingList"], "dataTypeEncPolicy": [t for t in TYPES if t in event["policy"]["dataTypeEncPolicy"]]}
        self.put({"is": "opened", "policy": policy, **{name: event[name] for name in names}})
        return {"ok": "context"}

    def keys(self, event):
        self.refresh()
        if not self.find("opened", event):
            raise Refused(10, "CONTEXT_NOT_FOUND")
        if self.find("keyed", event):
            raise Refused(8, "KEYS_TWICE")
        self.put({"is": "keyed", "first": 0, **{name: event[name] for name in "node id send receive".split()}})
        return {"ok": "keys"}

    def send(self, event):
        self.refresh()
        context, keys = self.context(event, [Refused(10, "CONTEXT_NOT_FOUND"), Refused(11, "NO_KEYS")])
        number = max([keys["first"] - 1] + [r["seq"] for r in self.find("sent", event)]) + 1
        block, values = split(context["policy"], event["message"])
        message = f"{number:016x}"
        block["metaData"] = {"authorizedIpxId": (context["own_ipx"] + ["null"])[0], "messageId": message, "n32fContextId": context["peer"]}
        protected, aad = base64url(b'{"alg":"dir","enc":"A128GCM"}'), base64url(compact(block).encode())
        key = keys["send"]["request"]
        nonce = bytes.fromhex(key["salt"]) + number.to_bytes(4, "big")
        sealed, tag = seal(bytes.fromhex(key["key"]), nonce, f"{protected}.{aad}".encode(), compact({"dataToEncrypt": values}).encode())
        jwe = {"aad": aad, "ciphertext": base64url(sealed), "iv": base64url(nonce), "protected": protected, "tag": base64url(tag)}
        mapping = mapping_of(context["policy"], event["message"])
        self.put({"is": "sent", "node": event["node"], "id": event["id"], "kind": "request", "mapping": mapping, "message": message, "seq": number})
        return self.on_wire({"reformattedData": jwe})

    def on_wire(self, document):
        self.wire.append(document)
        return {"document": document, "wire": len(self.wire)}

    def from_wire(self, event):
        if not 1 <= event["wire"] <= len(self.wire):
            raise Refused(6, "WIRE_UNKNOWN")
        return self.wire[event["wire"] - 1]

    def pass_event(self, event):
        document = self.from_wire(event)
        payload = {"identity": event["ipx"], "operations": event.get("operations", []), "tag": document["reformattedData"]["tag"]}
        signed = base64url(b'{"alg":"HS256"}') + "." + base64url(compact(payload).encode())
        if self.fails_now("signer"):
            raise Refused(36, "SIGNER")
        entry = dict(zip(["protected", "payload"], signed.split(".")), signature=base64url(signature(event["ipx"], signed)))
        return self.on_wire({**document, "modificationsBlock": document.get("modificationsBlock", []) + [entry]})

    def deliver(self, event):
        document = self.from_wire(event)
        self.refresh()
        jwe = document["reformattedData"]
        block = json.loads(from_base64url(jwe["aad"]))
        meta = block["metaData"]
        at = {"node": event["node"], "id": meta["n32fContextId"]}
        report = {"n32fContextId": at["id"], "n32fMessageId": meta["messageId"]}
        unknown = Refused(21, "CONTEXT_NOT_FOUND", report={**report, "n32fErrorType": "CONTEXT_NOT_FOUND"})
        context, keys = self.context(at, [unknown, Refused(22, "NO_KEYS")])
        additional = f"{jwe['protected']}.{jwe['aad']}".encode()
        plain = open_sealed(bytes.fromhex(keys["receive"]["request"]["key"]), *[from_base64url(jwe["iv"]), additional, from_base64url(jwe["ciphertext"]), from_base64url(jwe["tag"])])
        delivered = self.delivered(at, meta["messageId"])
        if delivered is not None:
            raise Refused(25, "REPLAY", detail=str(delivered), report={**report, "n32fErrorType": "MESSAGE_RECONSTRUCTION_FAILED"})
        values = json.loads(plain)["dataToEncrypt"]
        mapping = mapping_of(context["policy"], rebuild(block, values))
        for number, entry in enumerate(document.get("modificationsBlock", []), 1):
            payload = json.loads(from_base64url(entry["payload"]))
            assert payload["identity"] in context["peer_ipx"] + context["own_ipx"] and payload["tag"] == jwe["tag"]
            if self.fails_now("verifier"):
                raise Refused(35, "VERIFIER", detail=str(number))
            assert from_base64url(entry["signature"]) == signature(payload["identity"], f"{entry['protected']}.{entry['payload']}")
            for operation in payload["operations"]:
                block = patched(block, operation)
        self.put({"is": "delivered", **at, "kind": "request", "mapping": mapping, "message": meta["messageId"]})
        return {"delivered": rebuild(block, values), "message": meta["messageId"]}

    def restart(self, event):
        self.fresh = False
        return {"ok": "restart"}

    def answer(self, number, line):
        """The answer line to a line of the script."""
        events = {"context": self.context_event, "pass": self.pass_event}
        try:
            event = json.loads(line)
            told = events.get(event["do"], getattr(self, event["do"], None))(event)
        except ValueError:
            told = {"refused": 1, "name": "SYNTAX"}
        except Refused as refused:
            told = refused.answer
        return (compact({"line": number, **told}) + "\n").encode()


def signature(identity, text):
    return hmac.new(hashlib.sha256(b"n32-demo" + identity.encode()).digest(), text.encode(), "sha256").digest()


# Runs.

def pieces(length, most):
    """The lengths after each call that moves at most so many of these bytes."""
    return list(range(most, length, most)) + [length] if length else []


def run(script, **fails):
    """The status, what was written and the records, where call `fails[what]` of what fails."""
    written, status = b"", "Done"
    reads = [0] + pieces(len(script), fails.get("most", 65536))
    if "source" in fails and fails["source"] < len(reads):
        script, status = script[: reads[fails["source"]]], "ReadFault"
        script = script[: script.rfind(b"\n") + 1]
    try:
        world = World(fails)
    except Stopped as stopped:
        return str(stopped), b"", []
    writes = 0
    for number, line in enumerate(script.split(b"\n")[: None if script[-1:] != b"\n" else -1], 1):
        answer = world.answer(number, line) if line.strip() else b""
        taken = [0] + pieces(len(answer), fails.get("most", len(answer)))
        if "sink" in fails and fails["sink"] < writes + len(taken) - 1:
            return "WriteFault", written + answer[: taken[fails["sink"] - writes]], world.keeper.records
        writes += len(taken) - 1
        written += answer
    return status, written, world.keeper.records


def left(outcome):
    status, written, records = outcome
    answers = written.splitlines(keepends=True)
    whole = [answer for answer in answers if answer.endswith(b"\n")]
    digest = hashlib.sha256(written + b"".join(compact(record).encode() + b"\n" for record in records)).hexdigest()
    return {"status": status, "answers": len(whole), "delivered": sum(b.startswith(b'{"delivered":') for b in answers), "written": len(written), "records": len(records), "sha256": digest}


def row(**members):
    return json.dumps(members, separators=(",", ":"))


KEEPERS = [
    ("keeper", lambda k: {"keeper": k}),
    ("keeper that keeps", lambda k: {"keeper": k, "keeps": True}),
]
OTHERS = [
    ("source", lambda k: {"source": k}),
    ("source in pieces", lambda k: {"source": k, "most": NARROW}),
    ("sink", lambda k: {"sink": k}),
    ("sink in pieces", lambda k: {"sink": k, "most": NARROW}),
    ("signer", lambda k: {"signer": k}),
    ("verifier", lambda k: {"verifier": k}),
]


def tables(number, script):
    whole = run(script)
    yield row(script=number, bytes=len(script), **left(whole))
    for name, fails in KEEPERS + (OTHERS if number == 1 else []):
        outcome, call = None, 0
        while outcome != whole:
            outcome = run(script, **fails(call))
            yield row(fails=name, call=call, **left(outcome), front=whole[1].startswith(outcome[1]))
            call += 1
    if number == 1:
        yield from cuts(script, whole)


def cuts(script, whole):
    first = 0
    outcomes = [run(script[:length]) for length in range(len(script) + 1)]
    for length, outcome in enumerate(outcomes):
        if length == len(script) or outcomes[length + 1] != outcome:
            members = dict(cut=[first, length], **left(outcome), front=True)
            if not whole[1].startswith(outcome[1]):
                answers = outcome[1].splitlines(keepends=True)
                members.update(front=whole[1].startswith(b"".join(answers[:-1])), further=json.loads(answers[-1]))
            yield row(**members)
            first = length + 1


def main():
    with open(os.path.join(CRATE, "stdin"), "rb") as file:
        scripts = file.read().split(b"\n\n")
    wanted = [line for number, script in enumerate(scripts, 1) for line in tables(number, script + b"\n" * (number < len(scripts)))]
    if sys.argv[1:] == ["--print"]:
        print("\n".join(wanted))
        return 0
    with open(os.path.join(CRATE, "stdout"), encoding="utf-8") as file:
        stored = file.read().splitlines()
    differ = [i for i in range(max(len(wanted), len(stored))) if wanted[i : i + 1] != stored[i : i + 1]]
    for i in differ:
        print(f"{i + 1}:\n  wanted {''.join(wanted[i : i + 1])}\n  stored {''.join(stored[i : i + 1])}")
    print(f"{len(wanted) - len(differ)} of {len(wanted)} lines are the same")
    return 1 if differ else 0


if __name__ == "__main__":
    sys.exit(main())
