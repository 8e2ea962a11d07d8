"""The suites of TLS that docs/TLS.md names, in the words of openssl and of gnutls-cli."""
from dataclasses import dataclass
from enum import Enum


class Kind(Enum):
    GCM = "gcm(aes)"
    CCM = "ccm(aes)"
    # RFC 7366
    ENCRYPT_THEN_MAC = "authenc(hmac(sha256),cbc(aes))"
    # RFC 5246, 6.2.3.2: no template; `cbc` and `hmac` beside one another
    MAC_THEN_ENCRYPT = "cbc(aes)"


@dataclass(frozen=True)
class Suite:
    version: str
    openssl: str
    gnutls: str
    kind: Kind
    key_length: int
    tag: int = 16
    digest: str = "sha256"

    def __str__(self):
        return f"TLS {self.version} {self.openssl}{' MAC-then-encrypt' if self.kind is Kind.MAC_THEN_ENCRYPT else ''}"

    def words_of_openssl(self):
        """Options of s_server and s_client."""
        # at level 0 openssl takes tags of 8 bytes too
        if self.version == "1.3":
            return ["-tls1_3", "-ciphersuites", self.openssl, "-cipher", "DEFAULT:@SECLEVEL=0"]
        return ["-tls1_2", "-cipher", f"{self.openssl}:@SECLEVEL=0"]

    def words_of_server(self):
        return ["-no_etm"] if self.kind is Kind.MAC_THEN_ENCRYPT else []

    def priority(self):
        """The priority string of gnutls-cli."""
        exchange = "" if self.version == "1.3" else ":-KX-ALL:+RSA"
        return f"NONE:+VERS-TLS{self.version}:{self.gnutls}:+SIGN-ALL:+GROUP-ALL:+COMP-NULL{exchange or ':+ECDHE-RSA'}"


SUITES = [
    Suite("1.3", "TLS_AES_128_GCM_SHA256", "+AES-128-GCM:+AEAD", Kind.GCM, 16),
    Suite("1.3", "TLS_AES_256_GCM_SHA384", "+AES-256-GCM:+AEAD", Kind.GCM, 32, digest="sha384"),
    Suite("1.3", "TLS_AES_128_CCM_SHA256", "+AES-128-CCM:+AEAD", Kind.CCM, 16),
    Suite("1.3", "TLS_AES_128_CCM_8_SHA256", "+AES-128-CCM-8:+AEAD", Kind.CCM, 16, 8),
    Suite("1.2", "AES128-GCM-SHA256", "+AES-128-GCM:+AEAD", Kind.GCM, 16),
    Suite("1.2", "AES256-GCM-SHA384", "+AES-256-GCM:+AEAD", Kind.GCM, 32, digest="sha384"),
    Suite("1.2", "AES128-CCM", "+AES-128-CCM:+AEAD", Kind.CCM, 16),
    Suite("1.2", "AES128-CCM8", "+AES-128-CCM-8:+AEAD", Kind.CCM, 16, 8),
    Suite("1.2", "AES128-SHA256", "+AES-128-CBC:+SHA256", Kind.ENCRYPT_THEN_MAC, 16, 32),
    Suite("1.2", "AES128-SHA256", "+AES-128-CBC:+SHA256:%NO_ETM", Kind.MAC_THEN_ENCRYPT, 16, 32),
]
