"""A node of the DHT (BEP 5), IPv4 alone.

    messages   queries and answers as bytes
    table      the nodes that are known, in buckets
    store      peers that others announced here, and the tokens that let them
    lookup     the way to the nodes that are nearest to a number
    bounds     how much is asked and answered in a second
    node       the socket, and what is said by it, in a thread of its own

Only `node` uses a socket and a clock.
"""
