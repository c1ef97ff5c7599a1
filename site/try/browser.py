"""Debian's chromium for trials, with a folder of its own and, where it is to have one, a client certificate."""
import json
import os
import subprocess
from contextlib import contextmanager

from trial import done

NEEDED = ("chromium", "certutil", "pk12util", "unshare")


class Browser:
    """It believes `ca.crt` of its folder, and shows a certificate that stands there to some addresses, without asking: the policy
    that says so stands in a mount namespace, so this needs root."""

    def __init__(self, folder, certificate=None, addresses=()):
        self.folder, self.home = folder, folder / "home"
        policies = folder / "etc/policies/managed"
        for place in (policies, self.home):
            place.mkdir(parents=True)
        shown = [json.dumps({"pattern": address, "filter": {}}) for address in addresses]
        (policies / "plandesk.json").write_text(json.dumps({"AutoSelectCertificateForUrls": shown}))
        if certificate:
            self.take(certificate)

    def take(self, name):
        database = f"sql:{self.home}/.pki/nssdb"
        (self.home / ".pki/nssdb").mkdir(parents=True)
        done("certutil", "-d", database, "-N", "--empty-password")
        done("certutil", "-d", database, "-A", "-t", "CT,,", "-n", "ca", "-i", self.folder / "ca.crt")
        done("openssl", "pkcs12", "-export", "-in", f"{name}.crt", "-inkey", f"{name}.key", "-passout", "pass:x",
             "-out", f"{name}.p12", cwd=self.folder)
        done("pk12util", "-d", database, "-i", self.folder / f"{name}.p12", "-W", "x", "-K", "")

    def begin(self, *words, **more):
        """A browser with these words, of which the last one is a page's address. All that it starts ends with it."""
        script = (f"mount --bind {self.folder}/etc /etc/chromium && exec chromium --headless=new --no-sandbox --disable-gpu "
                  f'--user-data-dir={self.home}/profile "$@"')
        apart = ("unshare", "--mount", "--pid", "--fork", "--kill-child", "--mount-proc", "sh", "-c", script, "chromium")
        return subprocess.Popen([*apart, *map(str, words)], stdin=subprocess.DEVNULL, text=True,
                                env={**os.environ, "HOME": str(self.home)}, **more)

    def run(self, *words):
        """What a browser prints until it ends."""
        with self.begin(*words, stdout=subprocess.PIPE, stderr=subprocess.PIPE) as process:
            try:
                return process.communicate(timeout=120)
            finally:
                process.kill()

    @contextmanager
    def open(self, *words):
        """A browser that shows a page meanwhile."""
        with open(self.folder / "browser.told", "ab") as told:
            process = self.begin(*words, stdout=told, stderr=told)
        try:
            yield
        finally:
            process.kill()
            process.wait()
