"""Which requests come from the page itself: the names that it is asked for under, and the sites that send requests here."""
import ipaddress
import re
from typing import Mapping, Optional, Sequence, Union

HOST = re.compile(r"(?P<name>\[[0-9a-f:.]+\]|[^\[\]:/@?#\\\s]+)(?::(?P<port>[0-9]{0,5}))?", re.IGNORECASE)
PORTS = {"http": "80", "https": "443"}
THIS_MACHINE = ("localhost", "127.0.0.1", "::1")
EVERYWHERE = (None, "", "0.0.0.0", "::")


class Hosts:
    """The names under which a page may be asked for: the address that is listened on, those of this machine, and further ones.

    Another site can have its own name resolved to this machine, and its pages then count as ours, but for the name that browsers send along. An address is no
    such name, so where all addresses are listened on, or nobody says which, each of them may be asked for. `*` among the further names stands for any.

    >>> hosts = Hosts("0.0.0.0", ["page.example"])
    >>> [hosts.has(name) for name in ("192.168.1.5", "localhost", "page.example", "other.example")]
    [True, True, True, False]
    """

    def __init__(self, bound: Optional[str], further: Sequence[str] = ()) -> None:
        self._takes_addresses = bound in EVERYWHERE
        self._names = {plain(name) for name in (*THIS_MACHINE, bound or "", *further)}

    def has(self, name: str) -> bool:
        """Whether this name, without a port, is one of them."""
        return "*" in self._names or plain(name) in self._names or self._takes_addresses and address(name) is not None

    def refusal(self, headers: Mapping[str, str]) -> Optional[str]:
        """Why a request with these headers is none of the page; None where it is one. The names of the headers are in small letters."""
        host = headers.get("host", "")
        found = HOST.fullmatch(host)
        if not found or not self.has(found["name"]):
            return f"the page here is not that of {host or 'no name'}, or --allow-host (from Python allow_hosts) has to say so"
        origin = headers.get("origin")
        if origin is not None and not is_of(origin, found["name"], found["port"] or ""):
            return f"a page of {origin} cannot ask here"
        if headers.get("sec-fetch-site") == "cross-site" and headers.get("sec-fetch-mode") != "navigate":
            return "a page of another site cannot ask here"
        return None


def is_of(origin: str, name: str, port: str) -> bool:
    """Whether an origin, such as http://localhost:8765, is that of a host of this name and port."""
    scheme, _, place = origin.lower().partition("://")
    found = HOST.fullmatch(place)
    if scheme not in PORTS or not found:
        return False
    return (found["name"], found["port"] or PORTS[scheme]) == (name.lower(), port or PORTS[scheme])


def plain(name: str) -> str:
    """One spelling of a name or an address."""
    found = address(name)
    return str(found) if found else name.lower().rstrip(".")


def address(name: str) -> Union[ipaddress.IPv4Address, ipaddress.IPv6Address, None]:
    """The address that a name spells, in brackets or without; None where it spells none."""
    try:
        found = ipaddress.ip_address(name.strip("[]"))
    except ValueError:
        return None
    return getattr(found, "ipv4_mapped", None) or found
