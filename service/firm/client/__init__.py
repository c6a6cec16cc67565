"""Clients of the API. `ApiClient` waits for answers, and `AsyncApiClient` of asynchronous.py awaits them."""

from .blocking import ApiClient, ApiError, LostAnswer, Unreachable

__all__ = ["ApiClient", "ApiError", "LostAnswer", "Unreachable"]
