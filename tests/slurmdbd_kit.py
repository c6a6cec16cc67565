"""slurmdbd over a separate MariaDB on loopback: a user of a cluster of slurm_kit has two accounts and two QOS."""

from __future__ import annotations

import os
import shutil
import subprocess
from pathlib import Path

from harness.checks import Skipped
from slurm_kit import Cluster, free_ports, wait

PROGRAMS = ("slurmdbd", "sacctmgr", "mariadbd", "mariadb", "mariadb-install-db")
PLUGIN = "slurm-wlm/accounting_storage_mysql.so"
CONF = """\
AuthType=auth/munge
AuthInfo=socket={folder}/munge/socket
DbdHost={host}
DbdAddr=127.0.0.1
DbdPort={port}
SlurmUser=root
LogFile={folder}/log/slurmdbd.log
PidFile={folder}/slurmdbd.pid
StorageType=accounting_storage/mysql
StorageHost=127.0.0.1
StoragePort={database}
StorageUser=slurm
StoragePass=slurm
StorageLoc=slurm
"""
SLURM_CONF = """\
AccountingStorageType=accounting_storage/slurmdbd
AccountingStorageHost=127.0.0.1
AccountingStoragePort={port}
AccountingStoragePass={folder}/munge/socket
AccountingStorageEnforce=associations,limits,qos"""
GRANT = "CREATE DATABASE slurm; GRANT ALL ON slurm.* TO slurm@'127.0.0.1' IDENTIFIED BY 'slurm'"
USER = "nobody"
ACCOUNTS, QOS = ("light", "heavy"), ("normal", "heavy")  # of the user
OTHERS = "others"  # an account and a QOS of other users
SMALL = ["--innodb-buffer-pool-size=16M", "--innodb-log-file-size=8M", "--innodb-flush-log-at-trx-commit=0"]


def require_packages() -> None:
    """Skip the check without Debian's packages."""
    path = f"{os.environ['PATH']}:/usr/sbin"
    missing = [name for name in PROGRAMS if shutil.which(name, path=path) is None]
    if missing:
        raise Skipped(f"there is no {', '.join(missing)}: apt-get install slurmdbd mariadb-server")
    if not list(Path("/usr/lib").glob(f"*/{PLUGIN}")):
        raise Skipped("there is no accounting_storage_mysql.so: apt-get install slurm-wlm-mysql-plugin")


class Slurmdbd:
    def __init__(self) -> None:
        require_packages()
        self._port = free_ports(2)
        self._database: subprocess.Popen[bytes] | None = None

    def conf(self, folder: Path) -> str:
        """Return its lines of slurm.conf."""
        return SLURM_CONF.format(port=self._port, folder=folder)

    def start(self, cluster: Cluster) -> None:
        """Start both, and register the cluster and its user with slurmdbd."""
        self._start_database(cluster)
        path = cluster.folder / "slurmdbd.conf"
        words = {"folder": cluster.folder, "host": os.uname().nodename, "port": self._port, "database": self._port + 1}
        path.touch(0o600)
        path.write_text(CONF.format(**words))
        cluster.run("slurmdbd")
        wait(lambda: cluster.try_run("sacctmgr", "-n", "show", "cluster").returncode == 0, "slurmdbd")
        for command in (
            "cluster loopback",
            *(f"qos {name}" for name in (*QOS[1:], OTHERS)),
            *(f"account {name}" for name in (*ACCOUNTS, OTHERS)),
            f"user {USER} account={','.join(ACCOUNTS)} defaultaccount={ACCOUNTS[0]} qos={','.join(QOS)}",
        ):
            cluster.run("sacctmgr", "-i", "add", *command.split())

    def _start_database(self, cluster: Cluster) -> None:
        folder = cluster.folder / "database"
        own = ["--no-defaults", f"--datadir={folder}", "--user=root"]
        cluster.run(
            "mariadb-install-db", *own, "--auth-root-authentication-method=normal", "--skip-test-db", *SMALL[:2]
        )
        words = [f"--socket={folder}/socket", f"--pid-file={folder}/pid", f"--port={self._port + 1}"]
        words += ["--bind-address=127.0.0.1", "--skip-name-resolve", *SMALL]
        with open(cluster.folder / "log/mariadbd.log", "ab") as log:
            command = ["mariadbd", *own, *words]
            self._database = subprocess.Popen(command, env=cluster.environment, stdout=log, stderr=log)
        ask = ["mariadb", "--no-defaults", f"--socket={folder}/socket", "-e"]
        wait(lambda: cluster.try_run(*ask, "SELECT 1").returncode == 0, "mariadbd")
        cluster.run(*ask, GRANT)

    def stop(self, cluster: Cluster) -> None:
        cluster.kill("slurmdbd")
        if self._database is not None:
            self._database.terminate()
            self._database.wait()
