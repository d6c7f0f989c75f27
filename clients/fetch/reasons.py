"""Why a connection to a web server came to nothing."""

from __future__ import annotations

import http.client
import ssl


def reason_of(error: Exception) -> str:
    """Why a connection or an answer came to nothing, for the user."""
    if isinstance(error, ssl.SSLCertVerificationError):
        return f"the certificate isn't trusted ({error.verify_message}): the environment's SSL_CERT_FILE may name other authorities"
    if isinstance(error, ssl.SSLError):
        return f"no HTTPS is spoken there ({error.reason or 'the connection ended'})"
    if isinstance(error, http.client.IncompleteRead):
        return "the answer is cut short"
    if isinstance(error, http.client.HTTPException) and not isinstance(error, http.client.InvalidURL | ConnectionError):
        return "no HTTP is spoken there"
    return getattr(error, "strerror", None) or str(error) or type(error).__name__
