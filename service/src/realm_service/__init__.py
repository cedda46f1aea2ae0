"""Many histories of realm_sync, each a proved server node, over WebSocket and HTTP: docs/SERVICE.md."""
