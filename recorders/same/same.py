import sys
import threading

a = threading.Lock()  # lock A
b = threading.Lock()  # lock B
g = threading.Lock()  # lock G
of_g, said, is_set = threading.Condition(g), [], []


def run(work):
    thread = threading.Thread(target=work)
    thread.start()
    return thread


def in_order(first, second):
    with first:
        with second:
            pass


def await_said():
    while not said:
        pass


def crossed(back=lambda: in_order(b, a)):
    def there():
        in_order(a, b)
        said.append(True)

    def then():
        await_said()
        back()
    threads = [run(there), run(then)]
    for thread in threads:
        thread.join()


def tried():
    def back():
        with b:
            assert a.acquire(False)
            a.release()
    crossed(back)


def gate():
    def inside(first, second):
        with g:
            in_order(first, second)
    threads = [run(lambda: inside(a, b)), run(lambda: inside(b, a))]
    for thread in threads:
        thread.join()


def held():
    def take():
        with a:
            pass
        said.append(True)
    thread = run(take)
    await_said()
    with a:
        thread.join()


def notified():
    def wait():
        with of_g:
            said.append(True)
            while not is_set:
                of_g.wait()
        in_order(b, a)
    thread = run(wait)
    in_order(a, b)
    await_said()
    with of_g:
        is_set.append(True)
        of_g.notify()
    thread.join()


def long():
    for _ in range(70000):
        with a:
            pass
    abba()


def abba():
    run(lambda: in_order(a, b)).join()
    run(lambda: in_order(b, a)).join()


def try_second():
    with a:
        assert b.acquire(False)
        b.release()


def wait_for_condition():
    condition = threading.Condition(a)

    def wait():
        with b:
            with condition:
                said.append(True)
                while not is_set:
                    condition.wait()

    def notify():
        with condition:
            is_set.append(True)
            condition.notify()
    waiting = run(wait)
    await_said()
    run(notify).join()
    waiting.join()


def take_b():
    with b:
        pass


def join():
    with a:
        run(take_b).join()


def fifty():
    locks = [threading.Lock() for _ in range(50)]  # lock L
    for lock in locks:
        lock.acquire()
    for lock in locks:
        lock.release()


{"abba": abba, "crossed": crossed, "tried": tried, "gate": gate, "held": held, "notified": notified, "long": long, "try": try_second,
 "condition": wait_for_condition, "join": join, "fifty": fifty}[sys.argv[1]]()
