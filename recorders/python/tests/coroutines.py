import asyncio
import threading


async def pays(accounts, journal):
    async with accounts:
        async with journal:
            await asyncio.sleep(0)


async def audits(accounts, journal):
    await journal.acquire()
    async with accounts:
        pass
    journal.release()


async def main():
    accounts = asyncio.Lock()
    journal = asyncio.Lock()
    own = threading.Lock()
    await asyncio.create_task(pays(accounts, journal))
    await asyncio.create_task(audits(accounts, journal))
    async with accounts:
        with own:
            pass
        try:
            await asyncio.wait_for(accounts.acquire(), 0.01)
        except asyncio.TimeoutError:
            pass
    condition = asyncio.Condition()
    async with condition:
        asyncio.get_running_loop().create_task(tells(condition))
        await condition.wait()
        async with journal:
            pass


async def tells(condition):
    async with condition:
        condition.notify()


asyncio.run(main())
