"""The cache from Python, with nothing but ctypes: example.py LIBRARY.so"""

import ctypes
import itertools
import sys
from ctypes import POINTER, Structure, byref, c_char_p, c_int32, c_size_t, c_uint32, c_uint64, c_void_p

# Each is given a context, and lent key and value with their lengths.
LENT = [c_void_p, c_size_t, c_void_p, c_size_t]
LISTENER = ctypes.CFUNCTYPE(None, c_void_p, *LENT, c_int32)
WEIGH = ctypes.CFUNCTYPE(c_uint32, c_void_p, *LENT)
EXPIRE = ctypes.CFUNCTYPE(c_uint64, c_void_p, c_int32, *LENT, c_uint64)
PREDICATE = ctypes.CFUNCTYPE(c_int32, c_void_p, *LENT)
DROP = ctypes.CFUNCTYPE(None, c_void_p)
NOT_FOUND, TRUNCATED = 1, 2
BY_FUNCTION = 2
CAUSES = ["expired", "explicit", "replaced", "size"]
EVENTS = ["created", "updated", "read"]
NEVER = 2**64 - 1


class Settings(Structure):
    _fields_ = [
        ("is_bounded", c_int32), ("policy", c_int32), ("max_capacity", c_uint64), ("weigher", c_int32),
        ("shards", c_uint32), ("initial_capacity", c_uint64), ("time_to_live", c_uint64),
        ("time_to_idle", c_uint64), ("listener", LISTENER), ("context", c_void_p), ("name", c_char_p),
        ("weigh", WEIGH), ("weigh_context", c_void_p), ("expire", EXPIRE), ("expire_context", c_void_p),
        ("supports_predicates", c_int32),
    ]


def copies(key, key_length, value, length):
    return ctypes.string_at(key, key_length), ctypes.string_at(value, length)


class Cache:
    """A cache of at most such a total weight, bytes by bytes. The listener is given key, value and the name of the
    cause; `weigh` key and value; `expire` the name of the event, key, value and what is left, in nanoseconds."""

    def __init__(self, library, capacity, listener=None, name=None, weigh=None, expire=None, predicates=False):
        self.library, self.cache = library, c_void_p()
        library.ravulemis_message.restype = c_char_p
        # Without these a text would pass for bytes, by the address of its characters.
        library.ravulemis_insert.argtypes = [c_void_p, c_char_p, c_size_t, c_char_p, c_size_t]
        library.ravulemis_get.argtypes = [c_void_p, c_char_p, c_size_t, c_char_p, c_size_t, POINTER(c_size_t)]
        library.ravulemis_invalidate_if.argtypes = [c_void_p, PREDICATE, c_void_p, DROP]
        # What C may call is kept as long as it may: a predicate until the cache drops its context, its number here.
        self.settings, self.predicates = Settings(is_bounded=1, max_capacity=capacity), {}
        self.numbers, self.drop = itertools.count(1), DROP(self.predicates.pop)
        if listener:
            self.settings.listener = LISTENER(lambda _, *lent: listener(*copies(*lent[:4]), CAUSES[lent[4]]))
        if name is not None:
            self.settings.name = name.encode()
        if weigh:
            self.settings.weigher = BY_FUNCTION
            self.settings.weigh = WEIGH(lambda _, *lent: weigh(*copies(*lent)))
        if expire:
            self.settings.expire = EXPIRE(lambda _, event, *lent: expire(EVENTS[event], *copies(*lent[:4]), lent[4]))
        self.settings.supports_predicates = predicates
        self.checked(library.ravulemis_create(byref(self.settings), byref(self.cache)))

    def checked(self, code):
        if code < 0:
            raise ValueError(self.library.ravulemis_message(code).decode())
        return code

    def __setitem__(self, key, value):
        lengths = c_size_t(len(key)), c_size_t(len(value))
        self.checked(self.library.ravulemis_insert(self.cache, key, lengths[0], value, lengths[1]))

    def copied(self, call, *arguments, room=64):
        """What a call copies to a buffer, or None if there is nothing."""
        buffer, length = ctypes.create_string_buffer(room), c_size_t()
        code = self.checked(call(self.cache, *arguments, buffer, c_size_t(room), byref(length)))
        if code == TRUNCATED:
            return self.copied(call, *arguments, room=length.value)
        return None if code == NOT_FOUND else buffer.raw[: length.value]

    def get(self, key):
        return self.copied(self.library.ravulemis_get, key, c_size_t(len(key)))

    def name(self):
        name = self.copied(self.library.ravulemis_name)
        return None if name is None else name[:-1].decode()

    def invalidate_if(self, predicate):
        """Hides the entries for whose key and value the predicate is true."""
        number, asked = next(self.numbers), PREDICATE(lambda _, *lent: bool(predicate(*copies(*lent))))
        self.predicates[number] = asked
        self.checked(self.library.ravulemis_invalidate_if(self.cache, asked, number, self.drop))

    def run_pending_tasks(self):
        self.checked(self.library.ravulemis_run_pending_tasks(self.cache))

    def weight(self):
        weight = c_uint64()
        self.checked(self.library.ravulemis_size(self.cache, None, byref(weight)))
        return weight.value

    def close(self):
        self.checked(self.library.ravulemis_destroy(self.cache))

    def __enter__(self):
        return self

    def __exit__(self, *_):
        self.close()

    def __del__(self):
        # A cache that was closed, or never made, is refused, which is as good here.
        self.library.ravulemis_destroy(self.cache)


def with_every_setting(library):
    asked = []

    def expire(event, key, value, left):
        asked.append((event, key, left))
        return left if event == "read" else 0 if value == b"gone" else NEVER

    name, weigh = "café" * 20, lambda key, value: len(key) + len(value)
    with Cache(library, 104, name=name, weigh=weigh, expire=expire, predicates=True) as cache:
        assert cache.name() == name
        for key in range(4):
            cache[b"%d" % key] = b"v" * 10 * (key + 1)
        cache.run_pending_tasks()
        assert cache.weight() == 104
        cache[b"0"] = b"gone"
        assert cache.get(b"0") is None and cache.get(b"3") == b"v" * 40
        created = [("created", b"%d" % key, NEVER) for key in range(4)]
        assert asked == created + [("updated", b"0", NEVER), ("read", b"3", NEVER)], asked
        cache.invalidate_if(lambda key, value: key == b"2" or len(value) == 40)
        assert [cache.get(b"%d" % key) is None for key in range(4)] == [True, False, True, True]
        cache.run_pending_tasks()
        assert cache.weight() == 21 and not cache.predicates
        cache.invalidate_if(lambda key, value: True)
    assert not cache.predicates


def main(path):
    library = ctypes.CDLL(path)
    with_every_setting(library)
    told = []
    with Cache(library, 10, lambda *notice: told.append(notice)) as cache:
        cache[b"key"] = b"value"
        cache[b"key"] = b"v" * 100
        assert cache.get(b"key") == b"v" * 100 and cache.get(b"another") is None
        assert told == [(b"key", b"value", "replaced")], told
        try:
            cache["key"] = b"value"
        except ctypes.ArgumentError:
            pass
        else:
            sys.exit("a text was taken for bytes")
    plain = Cache(library, 1)
    refused = [cache.close, lambda: cache.get(b"key"), lambda: plain.get(b"")]
    refused.append(lambda: plain.invalidate_if(lambda key, value: True))
    for wrong in refused:
        try:
            wrong()
        except ValueError as error:
            print(f"Python: {error}")
        else:
            sys.exit("a wrong call was not refused")
    # A predicate that is refused is dropped as well.
    assert plain.name() is None and not plain.predicates


if __name__ == "__main__":
    main(sys.argv[1])
