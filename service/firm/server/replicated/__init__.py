"""A journal that several hosts share through etcd: the leading firmd appends lines there, and all others follow."""
