#!/usr/bin/env python3
"""Makes the inputs of these examples, and what is expected of them, by formulas alone: no network is run.

    examples/signals/made.py FOLDER
"""
import io
import math
import pathlib
import random
import sys
import wave


def noisy_sine(count=10000, period=2000):
    """Samples of a sine of 12,000 about 32,768, with noise of up to 3,000."""
    noise = random.Random("noise")
    return [round(32768 + 12000 * math.sin(2 * math.pi * n / period) + noise.uniform(-3000, 3000)) for n in range(count)]


def smooth(samples, power=3):
    """y += (x - y) / 2^power, rounded down, from y = 0."""
    y, words = 0, []
    for x in samples:
        y += (x - y) >> power
        words.append(y)
    return words


def sides(words, low=31768, middle=32768, high=33768):
    """Whether the last word outside of the band was above the middle."""
    last, flags = 0, []
    for word in words:
        if word > high or word < low:
            last = word
        flags.append(last > middle)
    return flags


def temperatures(count=288):
    """A day, a reading each five minutes, in tenths of a kelvin."""
    noise = random.Random("temperature")
    return [round(2831 + 60 * math.sin(2 * math.pi * (n - 108) / count) + noise.uniform(-8, 8)) for n in range(count)]


def averages(readings):
    """The sum of four readings, the absent ones zeros, divided by four and rounded down."""
    padded = [0, 0, 0, *readings]
    return [sum(padded[n : n + 4]) // 4 for n in range(len(readings))]


def pushes(count=500):
    """Pushes of up to 8, one way for 50 steps and then the other way."""
    noise = random.Random("push")
    return [(1 if n // 50 % 2 else -1) * noise.randint(0, 8) for n in range(count)]


def places(forces, place=1000, speed=0):
    """speed += push - place / 16, and then place += speed / 16, both rounded down."""
    words = []
    for push in forces:
        speed += push - (place >> 4)
        place += speed >> 4
        words.append(place)
    return words


def log(count=200):
    """A winter's day and a morning, a row each ten minutes: when, and hundredths of a degree inside and outside."""
    noise = random.Random("log")
    rows = []
    for n in range(count):
        outside = round(-325 + 400 * math.sin(2 * math.pi * (n - 54) / 144) + noise.uniform(-40, 40))
        inside = round(2050 + 60 * math.sin(2 * math.pi * (n - 70) / 144) + noise.uniform(-10, 10))
        rows.append((f"2026-01-{8 + n // 144:02} {n // 6 % 24:02}:{n % 6 * 10:02}", inside, outside))
    return rows


def tone(count=8000, rate=8000, pitch=220):
    """A second of a tone of 220 Hz, or of another pitch, and, three times as high and half as loud, another one, with
    noise."""
    noise = random.Random("tone")
    turn = 2 * math.pi * pitch / rate
    return [round(12000 * math.sin(turn * n) + 6000 * math.sin(3 * turn * n) + noise.uniform(-2000, 2000)) for n in range(count)]


def echoed(samples, delay=1000):
    """y(n) = x(n) + y(n - delay) / 4, rounded down, from y = 0."""
    words = []
    for n, x in enumerate(samples):
        words.append(x + ((words[n - delay] if n >= delay else 0) >> 2))
    return words


def text_of(tokens):
    """One token a line."""
    return "".join(f"{str(it).lower() if isinstance(it, bool) else it}\n" for it in tokens)


def csv_of(readings):
    lines = ["# tenths of a kelvin, time"]
    lines += [f"{it},{n // 12:02}:{n % 12 * 5:02}" for n, it in enumerate(readings)]
    return "\n".join(lines)  # the last line has no line feed


def hundredths(number):
    """A number of hundredths, with two digits after the point."""
    return f"{'-' * (number < 0)}{abs(number) // 100}.{abs(number) % 100:02}"


def log_of(rows):
    return "".join(["date,inside,outside\n", *(f"{at},{hundredths(inside)},{hundredths(outside)}\n" for at, inside, outside in rows)])


def wav_of(*channels, rate=8000):
    """A WAV file of 16 bits, with these channels."""
    file = io.BytesIO()
    with wave.open(file, "wb") as out:
        out.setnchannels(len(channels))
        out.setsampwidth(2)
        out.setframerate(rate)
        out.writeframes(b"".join(it.to_bytes(2, "little", signed=True) for frame in zip(*channels) for it in frame))
    return file.getvalue()


def climate_of(rows):
    """How much warmer it is inside, and the temperature outside, smoothed."""
    smoothed = smooth([outside for _, _, outside in rows], 2)
    columns = [f"{hundredths(inside - outside)},{hundredths(low)}\n" for (_, inside, outside), low in zip(rows, smoothed)]
    return "".join(["difference,smooth\n", *columns])


def files():
    """Each file, and its text or its bytes."""
    samples, readings, forces, rows = noisy_sine(), temperatures(), pushes(), log()
    heard, other = tone(), tone(pitch=330)
    words = smooth(samples)
    return {
        "noisy.txt": text_of(samples),
        "smooth.txt": text_of(words),
        "side.txt": text_of(sides(words)),
        "temperatures.csv": csv_of(readings),
        "average.txt": text_of(averages(readings)),
        "pushes.txt": text_of(forces),
        "place.txt": text_of(places(forces)),
        "log.csv": log_of(rows),
        "outside.csv": text_of(["average", *map(hundredths, averages([outside for _, _, outside in rows]))]),
        "tone.wav": wav_of(heard),
        "soft.wav": wav_of(smooth(heard)),
        "echo.wav": wav_of(echoed(heard)),
        "climate.csv": climate_of(rows),
        "stereo.wav": wav_of(heard, other),
        "soft_stereo.wav": wav_of(smooth(heard, 2), smooth(other, 4)),
    }


if __name__ == "__main__":
    for name, text in files().items():
        (pathlib.Path(sys.argv[1]) / name).write_bytes(text if isinstance(text, bytes) else text.encode())
