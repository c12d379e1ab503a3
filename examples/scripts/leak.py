"""A service that forgets nothing: every request leaves its answer in a cache that nobody empties."""

CACHE = {}


def answer(request):
    text = "answer to " + request
    CACHE[request] = text * 10
    return text


def serve(count):
    for k in range(count):
        answer("request " + str(k))


serve(8000)
