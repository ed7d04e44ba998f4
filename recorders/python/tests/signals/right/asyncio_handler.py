# right: asyncio's callback is no handler
import asyncio, signal, sys, threading
lock, provoked = threading.Lock(), sys.argv[1:] == ["provoke"]
async def main():
    loop, came = asyncio.get_running_loop(), asyncio.Event()
    def takes():
        with lock: came.set()
    loop.add_signal_handler(signal.SIGUSR1, takes)
    with lock: signal.raise_signal(signal.SIGUSR1)
    await came.wait()
asyncio.run(main())
