"""What `checks` and `bench` share: the built program, its inputs, clients and backends on sockets."""
