"""Locks of asyncio in opposite orders."""
import asyncio


async def both(outer, inner):
    async with outer:
        async with inner:
            pass


async def main():
    first, second = asyncio.Lock(), asyncio.Lock()
    await both(first, second)
    await both(second, first)
    print("done")


asyncio.run(main())
