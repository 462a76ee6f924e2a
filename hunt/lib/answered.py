"""What calls of the library that wait until a time, only try, or join have answered, in words: `answer_name(call)`."""

TIMED = {"pthread_cond_timedwait", "pthread_cond_clockwait", "pthread_mutex_timedlock", "pthread_mutex_clocklock", "pthread_timedjoin_np",
         "pthread_rwlock_timedrdlock", "pthread_rwlock_timedwrlock", "pthread_rwlock_clockrdlock", "pthread_rwlock_clockwrlock",
         "sem_timedwait", "sem_clockwait"}
TRYING = {"pthread_mutex_trylock", "pthread_rwlock_tryrdlock", "pthread_rwlock_trywrlock", "pthread_tryjoin_np", "pthread_spin_trylock",
          "sem_trywait"}
JOINING = {"pthread_join", "pthread_detach"}
_NAMES = {1: "EPERM", 3: "ESRCH", 11: "EAGAIN", 16: "EBUSY", 22: "EINVAL", 45: "EDEADLK", 116: "ETIMEDOUT"}  # picolibc's numbers
_FAILED = 0xFFFFFFFF


def answer_name(call):
    """For example `0, woken` or `ETIMEDOUT`; None of a call of which nothing is to be said: it didn't wait, or it has the lock, or it has joined."""
    if call.result is None or call.name not in TIMED | TRYING | JOINING:
        return None
    if call.result == 0:
        return "0, woken" if "_cond_" in call.name else None
    if call.result == _FAILED:
        return "-1, ETIMEDOUT" if call.name in TIMED else "-1, EAGAIN"
    return _NAMES.get(call.result, str(call.result))
