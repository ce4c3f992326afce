"""The front of examples/tls that this machine has, before the wiretap, and a certificate that clients trust."""
import os
import shutil
import subprocess
import tempfile

import sockets
from names import DIRECT_TLS, DOMAIN
from room import within

FRONTS = {"haproxy": ["-f", "haproxy.cfg"], "stunnel": ["stunnel.conf"]}
TRUSTED = "/etc/ssl/certs"


def front():
    """Which is there."""
    return next((name for name in FRONTS if shutil.which(name)), None) if shutil.which("openssl") else None


def trust():
    """A certificate of the domain with its key in one file, in a folder. It is the one that this process and what it starts
    trust, by a folder bound over the system's."""
    folder, trusted = tempfile.mkdtemp(), tempfile.mkdtemp()
    key, pem, both = (os.path.join(folder, name) for name in ("key.pem", "cert.pem", f"{DOMAIN}.pem"))
    subprocess.run(["openssl", "req", "-x509", "-newkey", "rsa:2048", "-nodes", "-days", "2", "-subj", f"/CN={DOMAIN}", "-addext",
                    f"subjectAltName=DNS:{DOMAIN}", "-keyout", key, "-out", pem], check=True, capture_output=True)
    named = subprocess.run(["openssl", "x509", "-hash", "-noout", "-in", pem], check=True, capture_output=True, text=True).stdout.strip()
    for name in (f"{named}.0", "ca-certificates.crt"):
        shutil.copy(pem, os.path.join(trusted, name))
    with open(both, "w", encoding="ascii") as file:
        for place in (pem, key):
            with open(place, encoding="ascii") as part:
                file.write(part.read())
    os.chmod(trusted, 0o755)
    subprocess.run(["mount", "--bind", trusted, TRUSTED], check=True)
    return folder


def started(folder):
    """The front, by its file of examples/tls as it stands, in the folder of the certificate. It listens."""
    name = front()
    flags = FRONTS[name]
    shutil.copy(os.path.join(sockets.TOP, "examples/tls", flags[-1]), folder)
    run = subprocess.Popen([shutil.which(name), *flags], cwd=folder, stdout=subprocess.DEVNULL, stderr=subprocess.DEVNULL)
    if not within(60, lambda: sockets.listens(DIRECT_TLS)):
        run.kill()
        raise ValueError(f"{name} does not listen")
    return run
