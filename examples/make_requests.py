#!/usr/bin/env python3
"""Prints request documents, one a line, for measuring `n32_replay blocks`.

usage: make_requests.py [COUNT [BYTES]]    (20000 lines of 700 bytes)

Each line is a request without query and body. Headers are added until the line has about BYTES bytes.
The lines depend on COUNT and BYTES alone.
"""
import json
import sys


def request(number: int, size: int) -> str:
    headers = [{"header": "Accept", "value": "application/json"}]
    document = {
        "requestLine": {
            "method": "GET",
            "scheme": "https",
            "authority": "udm.example",
            "path": f"/nudm-sdm/v2/imsi-{number:015d}/nssai",
            "protocolVersion": "HTTP/2",
        },
        "headers": headers,
    }
    while len(json.dumps(document, separators=(",", ":"))) < size:
        headers.append({"header": f"X-Filler-{len(headers)}", "value": f"value {number} of {len(headers)}"})
    return json.dumps(document, separators=(",", ":"))


def main() -> None:
    count = int(sys.argv[1]) if len(sys.argv) > 1 else 20000
    size = int(sys.argv[2]) if len(sys.argv) > 2 else 700
    for number in range(count):
        sys.stdout.write(request(number, size) + "\n")


if __name__ == "__main__":
    main()
