"""Takes and releases locks at random, in several threads and coroutines, and prints which locks were taken with which held:
`HELD NEW` for each order, of locks that were waited for."""
import asyncio
import random
import signal
import sys
import threading

seed = int(sys.argv[1])
orders = set()
names = {}


def named(lock):
    """Notes a lock under the name of its class: where this was called."""
    frame = sys._getframe(1)
    function = "" if frame.f_code.co_name == "<module>" else "." + frame.f_code.co_name
    names[id(lock)] = "oracle%s:%d" % (function, frame.f_lineno)
    return lock


a = named(threading.Lock())
b = named(threading.Lock())
c = named(threading.RLock())
d = named(threading.RLock())
e = named(threading.Semaphore())
f = named(threading.Lock())
locks = [a, b, c, d, e, f]


def name_of(lock):
    return names[id(lock)]


def takes(chance, held, lock):
    """Takes a lock by one of the calls, and notes the orders. Waits only briefly, so that nothing hangs."""
    if lock in held:
        return False
    how = chance.randrange(3)
    if how == 0:
        if not lock.acquire(False):
            return False
    elif not lock.acquire(timeout=0.002 if how == 1 else 0.06):
        return False
    if how:
        orders.update((name_of(other), name_of(lock)) for other in held)
    held.append(lock)
    return True


def works(number):
    chance, held = random.Random(seed * 100 + number), []
    for _ in range(150):
        lock = chance.choice(locks)
        if held and chance.random() < 0.45:
            held.pop(chance.randrange(len(held))).release()
        elif len(held) < 4:
            takes(chance, held, lock)
        elif lock in (c, d) and lock in held:
            with lock:
                pass
    for lock in held:
        lock.release()


async def walks(number, own):
    chance, held = random.Random(seed * 1000 + number), []
    for _ in range(60):
        lock = chance.choice(own)
        if held and chance.random() < 0.5:
            held.pop(chance.randrange(len(held))).release()
        elif lock not in held:
            try:
                await asyncio.wait_for(lock.acquire(), None if not held else 0.002)
            except asyncio.TimeoutError:
                continue
            if not is_apart:
                orders.update((name_of(other), name_of(lock)) for other in held)
            held.append(lock)
        await asyncio.sleep(0)
    for lock in held:
        lock.release()


is_apart = sys.version_info < (3, 12)  # then wait_for acquires in a task of its own


async def main():
    own = [named(asyncio.Lock()),
           named(asyncio.Lock()),
           named(asyncio.Lock())]
    await asyncio.gather(*[walks(number, own) for number in range(8)])


def handles(*_):
    with f:
        pass


threads = [threading.Thread(target=works, args=(number,)) for number in range(6)]
for thread in threads:
    thread.start()
for thread in threads:
    thread.join()
if not is_apart:
    asyncio.run(main())
for order in sorted(orders):
    print(*order)
