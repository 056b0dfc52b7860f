"""Certificates for a cluster on this machine: TLS between etcd and its users, and a user of etcd for each node.

They are made as docs/CLUSTER.md says. The name in a node's certificate is its user, and its role has the keys of the log alone.
"""
import subprocess


def openssl(folder, *words):
    subprocess.run(["openssl", *words], cwd=folder, check=True, stdout=subprocess.DEVNULL, stderr=subprocess.DEVNULL)


class Certificates:
    """An authority, a certificate for each node, and one for the user root."""

    def __init__(self, folder, addresses):
        self.folder, self.names = folder, [f"n{at}" for at in range(1, len(addresses) + 1)]
        folder.mkdir(parents=True, exist_ok=True)
        openssl(folder, "req", "-x509", "-newkey", "rsa:2048", "-nodes", "-days", "2", "-subj", "/CN=authority", "-keyout", "ca.key", "-out", "ca.pem")
        for name, address in [*zip(self.names, addresses), ("root", addresses[0])]:
            openssl(folder, "req", "-newkey", "rsa:2048", "-nodes", "-subj", f"/CN={name}", "-keyout", f"{name}.key", "-out", f"{name}.csr")
            # members on one machine reach each other from its first address
            (folder / "extensions").write_text(f"subjectAltName=IP:{address},IP:127.0.0.1\n", encoding="utf-8")
            openssl(folder, "x509", "-req", "-days", "2", "-in", f"{name}.csr", "-CA", "ca.pem", "-CAkey", "ca.key", "-CAcreateserial", "-extfile", "extensions", "-out", f"{name}.pem")

    def of_member(self, name):
        """The options of etcd."""
        found = []
        for kind in ("", "peer-"):
            found += [f"--{kind}cert-file={self.folder}/{name}.pem", f"--{kind}key-file={self.folder}/{name}.key", f"--{kind}trusted-ca-file={self.folder}/ca.pem", f"--{kind}client-cert-auth"]
        return found

    def of_node(self, name):
        """The variables of `cadastre-node`."""
        return {"CADASTRE_ETCD_CA": f"{self.folder}/ca.pem", "CADASTRE_ETCD_CERT": f"{self.folder}/{name}.pem", "CADASTRE_ETCD_KEY": f"{self.folder}/{name}.key"}

    def of_root(self):
        """The options of etcdctl."""
        return [f"--cacert={self.folder}/ca.pem", f"--cert={self.folder}/root.pem", f"--key={self.folder}/root.key"]

    def users(self):
        """The calls of etcdctl that make the users, and let nobody in without one."""
        yield "role add land"
        yield "role grant-permission land readwrite --prefix /land"
        for name in self.names:
            yield f"user add {name} --no-password"
            yield f"user grant-role {name} land"
        yield "user add root --no-password"
        yield "user grant-role root root"
        yield "auth enable"
