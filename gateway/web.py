"""What a browser asks: the page, and the feed as server-sent events."""

from __future__ import annotations

LONGEST = 16384
# What every answer says: that it is kept nowhere, and is for no page but its own.
SAFE = b'Cache-Control: no-store\r\nX-Content-Type-Options: nosniff\r\nReferrer-Policy: no-referrer\r\nCross-Origin-Resource-Policy: same-origin\r\n'
EVENTS = b'HTTP/1.1 200 OK\r\nContent-Type: text/event-stream\r\nConnection: close\r\n' + SAFE + b'\r\n'


def reply(status: str, body: bytes, kind: str = 'text/plain; charset=utf-8') -> bytes:
    """A whole answer."""
    head = f'HTTP/1.1 {status}\r\nContent-Type: {kind}\r\nContent-Length: {len(body)}\r\nConnection: close\r\n'
    return head.encode() + SAFE + b'\r\n' + body


def values_of(fields: list[bytes], name: bytes) -> list[bytes]:
    """The values of the header fields of a name, in small letters."""
    parted = [field.partition(b':') for field in fields]
    return [value.strip().lower() for found, _, value in parted if found.lower() == name]


def answer_of(request: bytes, page: bytes, hosts: frozenset[bytes]) -> bytes | None:
    """What a request is answered; None where it asks for events.

    A host that is none of the gateway's own is refused, so no page of elsewhere reaches it under a name of its own. Nor does a page of elsewhere
    get events: a browser says where it asks from.
    """
    line, *fields = request.split(b'\r\n')
    if values_of(fields, b'host') not in [[host] for host in hosts]:
        return reply('421 Misdirected Request', b'this host is not served here\n')
    path = line.split(b' ')[1].split(b'?')[0]
    if path == b'/events' and values_of(fields, b'sec-fetch-site') not in ([], [b'same-origin'], [b'none']):
        return reply('403 Forbidden', b'events are for the page of this address\n')
    if path == b'/':
        return reply('200 OK', page, 'text/html; charset=utf-8')
    return None if path == b'/events' else reply('404 Not Found', b'nothing is here\n')


def events_of(lines: list[bytes]) -> bytes:
    """Lines of the feed, each as an event."""
    return b''.join(b'data: ' + line + b'\n' for line in lines)
