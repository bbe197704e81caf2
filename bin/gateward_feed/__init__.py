"""What bin/gateward-feed does: the objects of a cluster go to the admin endpoint of a gateward, and its statuses go to the cluster."""
