"""What `/metrics` tells, by Prometheus' client library, which adds the process's memory, processor time and open files."""

from prometheus_client import Counter, Gauge, Histogram

_BOUNDS = (0.0005, 0.001, 0.002, 0.005, 0.01, 0.02, 0.05, 0.1, 0.2, 0.5, 1, 2, 5, 10, 30)

MESSAGES = Counter("realm_messages", "Messages that a node answered", ["kind"])
ANSWERED = {kind: MESSAGES.labels(kind) for kind in ("bind", "upload", "ask", "retire", "read")}
DECLINED = Counter("realm_messages_declined", "Messages that weren't handed to a node", ["why"])
REFUSED = Counter("realm_requests_refused", "Requests and sockets that ended with a refusal", ["status"])
ENTRIES = Counter("realm_entries", "Entries that came to histories")
STORED_BYTES = Counter("realm_stored_bytes", "Bytes of journals that were stored")
TAKEN = Counter("realm_histories_taken", "Histories that this worker took")
FENCED = Counter("realm_histories_fenced", "Histories that another worker had taken")
OPENED = Counter("realm_histories_opened", "Nodes that were opened")
CLOSED = Counter("realm_histories_closed", "Nodes that were let go since they were idle, or for room")
FAILED = Counter("realm_batches_failed", "Batches that weren't stored, whose nodes were let go", ["why"])
RELAYED = Counter("realm_relayed", "Sockets and requests that were passed on to the owner")
SLOW = Counter("realm_connections_too_slow", "Connections that were cut since a request or a message dripped")

OPENING = Histogram("realm_open_seconds", "From the store's journal to a node", buckets=_BOUNDS)
TURNS = Histogram("realm_turns_seconds", "A batch in its node", buckets=_BOUNDS)
STORING = Histogram("realm_store_seconds", "A batch's append in the store", buckets=_BOUNDS)
REPLYING = Histogram("realm_reply_seconds", "From a message to its reply", buckets=_BOUNDS)

CONNECTIONS = Gauge("realm_connections", "Open sockets")
IN_FLIGHT = Gauge("realm_bytes_in_flight", "Bytes of messages that wait for their replies")
OWNED = Gauge("realm_histories_owned", "Histories that this worker owns")
OPEN = Gauge("realm_histories_open", "Of those, the ones whose nodes are in memory")
HELD = Gauge("realm_histories_open_bytes", "What their nodes take, as estimated from their journals")
