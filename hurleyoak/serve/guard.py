"""Who may ask: the page of this server, with its key, and no other.

Another web page, open in the same browser, can send requests to any address. Four checks stop it, and for most
browsers each of them is enough:

- The name in `Host` has to be this server's own, against a foreign name that is made to mean 127.0.0.1.
- `Origin` and `Sec-Fetch-Site` have to be the page's own if they are sent.
- A request for work has to be JSON, which a form can't send.
- It has to carry the key, which only the address in the terminal has.
"""
from __future__ import annotations

import hmac
import secrets
from typing import Mapping

KEY_HEADER = "X-Pop-Key"
NAMES = ("127.0.0.1", "localhost")

POLICY = "; ".join(
    [
        "default-src 'none'",
        "script-src 'self'",
        "style-src 'self'",
        "img-src 'self'",
        "connect-src 'self'",
        "base-uri 'none'",
        "form-action 'none'",
        "frame-ancestors 'none'",
        "require-trusted-types-for 'script'",
        "trusted-types 'none'",
    ]
)
HEADERS = {
    "Content-Security-Policy": POLICY,
    "X-Content-Type-Options": "nosniff",
    "X-Frame-Options": "DENY",
    "Referrer-Policy": "no-referrer",
    "Cross-Origin-Opener-Policy": "same-origin",
    "Cross-Origin-Resource-Policy": "same-origin",
    "Permissions-Policy": "camera=(), geolocation=(), microphone=(), payment=(), usb=()",
    "Cache-Control": "no-store",
}


def new_key() -> str:
    """A key that nobody can guess."""
    return secrets.token_urlsafe(24)


def hosts(port: int) -> set[str]:
    """What `Host` may say."""
    return {f"{name}:{port}" for name in NAMES} | ({*NAMES} if port == 80 else set())


def refusal(headers: Mapping[str, str], port: int) -> str:
    """Why a request isn't answered whatever it asks for; empty where it may be."""
    if headers.get("Host", "").lower() not in hosts(port):
        return "the request was sent to another name than this server's"
    origin = headers.get("Origin")
    if origin is not None and origin.lower() not in {f"http://{host}" for host in hosts(port)}:
        return "the request comes from another page"
    if headers.get("Sec-Fetch-Site", "none") not in ("none", "same-origin"):
        return "the request comes from another page"
    return ""


def work_refusal(headers: Mapping[str, str], key: str) -> str:
    """Why a request for work isn't answered; empty where it may be."""
    if not hmac.compare_digest(headers.get(KEY_HEADER, "").encode(), key.encode()):
        return "the key is missing or is another one: open the address that the terminal shows"
    if headers.get("Content-Type", "").split(";")[0].strip().lower() != "application/json":
        return "the request has to be JSON"
    return ""
