"""A zone, and ninety questions of it as kdig takes them: each kind of answer that a server of a zone gives."""

LONG = ".".join(["x" * 63] * 3 + ["y" * 53])  # with `example` 255 octets, the most that a name has
MANY = ".".join("1" * 100)

RECORDS = r"""
chain1 CNAME chain2
chain2 CNAME chain3
chain3 CNAME chain4
chain4 CNAME chain5
chain5 CNAME chain6
chain6 CNAME www
loop1 CNAME loop2
loop2 CNAME loop1
out CNAME www.elsewhere.
gone CNAME missing
old DNAME new
www.new A 192.0.2.70
mx.new MX 5 www.new
*.wild A 192.0.2.71
*.wild TXT "any"
*.wild MX 10 www
sub NS ns.sub
sub NS ns2.sub
ns.sub A 192.0.2.72
ns2.sub AAAA 2001:db8::72
sub DS 12345 8 2 00112233445566778899aabbccddeeff00112233445566778899aabbccddeeff
deep.er.ent A 192.0.2.73
a\032b A 192.0.2.74
a\.b A 192.0.2.75
a\000b A 192.0.2.76
\255\254 A 192.0.2.77
q\"q A 192.0.2.78
-dash A 192.0.2.79
_under TXT "one" "two" "" "three \"quoted\" \\ \001"
ttl0 0 A 192.0.2.80
ttlmax 2147483647 A 192.0.2.81
mxs MX 10 mx1.mail
mxs MX 20 mx2.mail
mxs MX 30 mx1.mail
mxs MX 40 www
mxs MX 50 ttlmax
mx2.mail A 192.0.2.26
mx2.mail AAAA 2001:db8::26
ptr PTR www
ptr PTR WWW.Other.Name.
caa CAA 0 issue "ca.example.net"
caa CAA 128 iodef "mailto:a@example.net"
tlsa TLSA 3 1 1 00112233445566778899aabbccddeeff00112233445566778899aabbccddeeff
sshfp SSHFP 4 2 00112233445566778899aabbccddeeff00112233445566778899aabbccddeeff
naptr NAPTR 100 10 "u" "E2U+sip" "!^.*$!sip:info@example!" .
naptr NAPTR 100 20 "s" "SIP+D2U" "" _sip._udp
hinfo HINFO "CPU" "OS"
loc LOC 52 22 23.000 N 4 53 32.000 E -2.00m 0.00m 10000m 10m
rp RP hostmaster www
afsdb AFSDB 1 www
srv0 SRV 0 0 0 .
unknown TYPE65280 \# 4 01020304
unknown TYPE65281 \# 0
unknown A 192.0.2.82
key DNSKEY 256 3 8 AwEAAcw5QLr0IjC0wKbGoBPQv4qmeqHy9mvL5qGQTuaG5TSrNqEAR6b/qvxDx6my4JmEmjUPA1JeEI9YfTUieMr2UZflu7aIbZFLw0vqiYrywCGrCHXLalOrEOmrvAxLvq4vHtuTlH7JIszzYBSes8g1vle6KG7xXiP3U5Ll96Qiu6bZ31rlMQSPB20xbqJJh6psNSrQs41QvdcXAej+K2Hl1Wd8kPriec4AgiBEh8sk5Pp8W9ROLQ7PcbqqttFaW2m7N/Wy4qcFU13roWKDEAstbxH5CHPoBfZSbIwK4KM6BK/uDHpSPIbiOvOCW+lvu9TAiZPc0oysY6aslO7jXv16Gws=
Case.Name A 192.0.2.83
""" + f"{LONG} A 192.0.2.84\n{MANY} A 192.0.2.85\n{MANY} TXT \"a hundred labels\"\n"

TWELVE = ["A", "NS", "CNAME", "SOA", "PTR", "MX", "TXT", "AAAA", "SRV", "HINFO", "DNAME", "ANY"]

ASKED = (
    [("example", rtype) for rtype in TWELVE]
    + [("www.example", rtype) for rtype in ["A", "AAAA", "MX", "ANY", "TYPE65280"]]
    + [("WWW.EXAMPLE", "A"), ("wWw.ExAmPlE", "AAAA"), ("case.name.example", "A"), ("CASE.NAME.EXAMPLE", "A")]
    + [("alias.example", rtype) for rtype in ["A", "CNAME", "MX", "AAAA"]]
    + [("chain1.example", "A"), ("chain1.example", "TXT"), ("chain4.example", "CNAME"), ("loop1.example", "A"), ("out.example", "A"), ("gone.example", "A")]
    + [("old.example", "DNAME"), ("old.example", "A"), ("www.old.example", "A"), ("missing.old.example", "A"), ("mx.old.example", "MX")]
    + [("a.wild.example", "A"), ("b.c.wild.example", "TXT"), ("wild.example", "A"), ("*.wild.example", "MX"), ("a.wild.example", "AAAA")]
    + [("sub.example", "A"), ("www.sub.example", "A"), ("sub.example", "NS"), ("sub.example", "DS"), ("ns.sub.example", "A")]
    + [("missing.example", "A"), ("missing.example", "MX"), ("a.b.c.missing.example", "TXT"), ("ent.example", "A"), ("er.ent.example", "TXT"), ("deep.er.ent.example", "A")]
    + [(r"a\032b.example", "A"), (r"a\.b.example", "A"), (r"a\000b.example", "A"), (r"\255\254.example", "A"), (r"q\"q.example", "A"), ("-dash.example", "A")]
    + [(LONG + ".example", "A"), (LONG + ".example", "AAAA"), (MANY + ".example", "A"), (MANY + ".example", "TXT"), ("2." + MANY + ".example", "A")]
    + [("_under.example", "TXT"), ("ttl0.example", "A"), ("ttlmax.example", "A"), ("mxs.example", "MX"), ("mail.example", "MX"), ("ptr.example", "PTR")]
    + [("caa.example", "CAA"), ("tlsa.example", "TLSA"), ("sshfp.example", "SSHFP"), ("naptr.example", "NAPTR"), ("hinfo.example", "HINFO"), ("loc.example", "LOC")]
    + [("rp.example", "RP"), ("afsdb.example", "AFSDB"), ("srv0.example", "SRV"), ("_sip._udp.example", "SRV"), ("key.example", "DNSKEY")]
    + [("unknown.example", "TYPE65280"), ("unknown.example", "TYPE65281"), ("unknown.example", "ANY"), ("unknown.example", "TYPE65282")]
    + [("many.example", "A"), ("huge.example", "TXT"), ("huge.example", "A")]
    + [("www.elsewhere", "A"), ("elsewhere", "SOA"), ("www.elsewhere", "ANY")]
)
