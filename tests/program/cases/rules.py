"""Zone rules that groups of cases share: those that are taken, and texts that are none."""

# of 64 bytes
LONGEST_RULE = "A" * 15 + "-1:00:00" + "B" * 15 + ",M3.5.0/02:00:00,M10.5.0/3"
CENTRAL_EUROPE = "CET-1CEST,M3.5.0,M10.5.0/3"
RULES = [
    CENTRAL_EUROPE,
    "UTC0",
    "EST5EDT,M3.2.0,M11.1.0",
    "<-03>3<-02>,M3.5.0/-2,M10.5.0/-1",
    "AEST-10AEDT,M10.1.0,M4.1.0/3",
    "<+0545>-5:45",
    "AAA24",
    "AAA-24",
    "AAA0BBB,J60/167,J300/-167",
    "AAA0BBB,59,299/0:00:01",
    LONGEST_RULE,
]
NO_RULES = [
    "",
    "a" * 65,
    f"{LONGEST_RULE}:00",
    f"{LONGEST_RULE[:-1]}03",
    "A" * 16 + "-1",
    "AA-1",
    "CET",
    "60",
    "Europe/Berlin",
    "CET-25",
    "CET-1CEST,M13.5.0,M10.5.0/3",
    "CET-1CEST,M3.5.0,M10.5.0/168",
    "UTC0 ",
]
