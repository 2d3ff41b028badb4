"""The scenarios of the benches, and how their programs are given them."""
import contextlib
import tempfile


def rule(network, name, record_type, head, records=()):
    """A rule of the first server of a network, with its records."""
    return ["reply 11.0.%d.1 udp %s %s 0 message NOERROR %s" % (network, name, record_type, head), *records]


def delegation(zone, domain, network, servers):
    """The rule of the first server of the network before, which refers a zone to servers of this network, so many,
    whose names lie in a domain; each has an address of IPv4 and one of IPv6."""
    numbers = range(1, servers + 1)
    names = ["%s 172800 IN NS s%d.%s" % (zone, n, domain) for n in numbers]
    addresses = []
    for n in numbers:
        addresses.append("s%d.%s 172800 IN A 11.0.%d.%d" % (n, domain, network, n))
        addresses.append("s%d.%s 172800 IN AAAA 2001:503:%d::%d" % (n, domain, network, n))
    return rule(network - 1, zone, "NS", "none 0 %d %d" % (servers, 2 * servers), names + addresses)


def scenario(roots, is_kept, rules, network, asked):
    """A scenario whose question is for a name, for which the first server of a network answers."""
    lines = ["recursor 1", *("root 11.0.0.%d" % n for n in range(1, roots + 1))]
    lines += [] if is_kept else ["option response_cache_size 0"]
    lines += ["patience 3", "told script", *rules]
    lines += rule(network, asked, "A", "aa 1 0 0", ["%s 300 IN A 93.184.215.14" % asked])
    return "\n".join([*lines, "question %s A plain" % asked, "end", ""]).encode()


def way(zones, unused=0):
    """A question that goes down zones that lie each in the one before, the root included, so many: each has one server.
    The question is for the name of the last, the cache keeps nothing, and so many more rules stand beside those that the
    question comes to."""
    rules, zone = [], "."
    for network in range(1, zones):
        zone = "z%d.%s" % (network, "" if zone == "." else zone)
        rules += delegation(zone, zone, network, 1)
    for n in range(unused):
        rules += rule(0, "u%d." % n, "A", "aa 1 0 0", ["u%d. 300 IN A 93.184.215.14" % n])
    return scenario(1, False, rules, zones - 1, zone)


def world(roots, second, third, asked, is_kept):
    """A question for a name in example.com., over roots, servers of com. and servers of example.com., so many. A server of
    example.com. denies that www.example.com. has servers of its own."""
    soa = "example.com. 3600 IN SOA s1.example.com. admin.example.com. 1 1800 900 604800 300"
    rules = delegation("com.", "gtld-servers.net.", 1, second) + delegation("example.com.", "example.com.", 2, third)
    rules += rule(2, "www.example.com.", "NS", "aa 0 1 0", [soa])
    return scenario(roots, is_kept, rules, 2, asked)


def small(is_kept):
    """One server a zone, and a question for the zone's own name."""
    return world(1, 1, 1, "example.com.", is_kept)


def as_the_dns(is_kept):
    """The shape of the DNS: 13 roots, 13 servers of com., 4 of example.com., and a question for a name within it."""
    return world(13, 13, 4, "www.example.com.", is_kept)


@contextlib.contextmanager
def held(text):
    """A file that holds a text, for the standard input of programs that are run one after the other."""
    with tempfile.NamedTemporaryFile() as it:
        it.write(text)
        it.flush()
        yield it.name
