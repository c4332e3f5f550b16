"""Connect to an MQTT broker, by MQTT 5, whose brokers deliver no message that is longer than a client takes."""
from __future__ import annotations

import argparse
import asyncio
import functools
from typing import Callable, Mapping, NamedTuple, Sequence

from ..base.journal_lines import CannotStart

try:
    import paho.mqtt
    import paho.mqtt.client as mqtt
    from paho.mqtt.packettypes import PacketTypes
    from paho.mqtt.properties import Properties
    from paho.mqtt.reasoncodes import ReasonCodes
except ImportError:
    raise CannotStart("python3-paho-mqtt is not installed: apt-get install python3-paho-mqtt") from None

PAHO = "1.6"  # `Client` replaces private methods of this version
LONGEST_MESSAGE = 1_000_000  # bytes of a packet: a message with its topic and its seal
HEADER = 20  # bytes of a packet besides the topic and the message, at most
KEEP_ALIVE = 30  # seconds
UNACKNOWLEDGED = 16  # messages that the broker delivers before they are acknowledged
REFUSED = 128  # reason codes from here on are refusals
DONE: int = mqtt.MQTT_ERR_SUCCESS
LOST: int = mqtt.MQTT_ERR_CONN_LOST  # the connection
OLD_PROTOCOL, OTHER_PROTOCOL = 1, 132  # the codes with which a broker of MQTT 3.1.1, or of MQTT 5, refuses the version of the protocol
TOO_LARGE = 149  # the code with which a broker refuses a message for its length


class Arrival(NamedTuple):
    """A message from the broker. `number` is its packet identifier; None if the broker expects no acknowledgement."""

    topic: str
    payload: bytes
    number: int | None


class Handlers(NamedTuple):
    """The functions that a client calls, in its own thread. An exception in one of them ends the client."""

    opened: Callable[[Client, int], None]  # the broker has accepted the connection, and takes packets of this many bytes
    closed: Callable[[], None]
    arrived: Callable[[Arrival, Callable[[], None]], None]  # a message, and what acknowledges it from any thread
    received: Callable[[int, int], None]  # the broker has received a message: its number, and the reason code
    refused: Callable[[str], None]  # a sentence: the broker refuses the connection, or to deliver messages


class Client(mqtt.Client):  # type: ignore[misc]  # (paho has no types)
    """A client that outlives what paho cannot read.

    paho decodes the properties and the reason code of each packet, and its thread ends in silence at one that it does not know. Nothing
    of this is used here but the number of the reason. So this client reads these packets by itself. Any other exception ends it, and
    `run` raises it.
    """

    def __init__(self, handlers: Handlers, options: argparse.Namespace, topics: Sequence[tuple[str, int]]) -> None:
        """Prepare a client for the broker in the options. The broker names it, so that a copy of the whole machine can connect, too. The
        broker stores no messages for it while it is disconnected."""
        super().__init__(protocol=mqtt.MQTTv5)
        self._handlers, self._topics = handlers, topics
        self._openings = 0  # connections that were accepted
        self._end: Callable[[Exception], object] = print
        self.on_connect, self.on_disconnect = self._note_opening, lambda *_: handlers.closed()
        self.reconnect_delay_set(1, 5)
        if options.broker_user:
            password = options.broker_password.read_text().strip() if options.broker_password else None
            self.username_pw_set(options.broker_user, password)
        if needs_tls(options):
            self.tls_set(ca_certs=str(options.broker_authority) if options.broker_authority else None)

    async def run(self, host: str, port: int) -> None:
        """Connect, and again whenever the connection is lost, until this task is cancelled. Raise what ends the client."""
        loop = asyncio.get_running_loop()
        ended: asyncio.Future[None] = loop.create_future()

        def end(fault: Exception) -> None:
            if not ended.done():
                ended.set_exception(fault)
        self._end = functools.partial(loop.call_soon_threadsafe, end)
        properties = Properties(PacketTypes.CONNECT)
        properties.MaximumPacketSize, properties.ReceiveMaximum = LONGEST_MESSAGE, UNACKNOWLEDGED
        self.connect_async(host, port, keepalive=KEEP_ALIVE, clean_start=True, properties=properties)
        self.loop_start()
        try:
            await ended
        finally:
            self.disconnect()
            await loop.run_in_executor(None, self.loop_stop)

    def _thread_main(self) -> None:
        try:
            self.loop_forever(retry_first_connection=True)
        except Exception as fault:  # pylint: disable=broad-except
            self._sock_close()
            self._end(fault)

    def _note_opening(self, _client: object, _data: object, _flags: object, _code: object, properties: object) -> None:
        self._openings += 1
        self.subscribe([*self._topics])
        self._handlers.opened(self, min(LONGEST_MESSAGE, getattr(properties, "MaximumPacketSize", LONGEST_MESSAGE)))

    def _handle_connack(self) -> int:
        code = self._in_packet["packet"][1]
        if code == OLD_PROTOCOL or code >= REFUSED:
            self._handlers.refused(explain_refusal(code))
            return LOST
        result: int = super()._handle_connack()
        return result

    def _handle_suback(self) -> int:
        packet = bytes(self._in_packet["packet"])
        refused = [code for code in packet[behind_properties(packet, 2):] if code >= REFUSED]
        if refused:
            self._handlers.refused(f"The broker does not deliver the other sites' messages: {name_of(PacketTypes.SUBACK, refused[0])}")
        return DONE

    def _handle_disconnect(self) -> int:
        packet = self._in_packet["packet"]
        if packet and packet[0] >= REFUSED:
            self._handlers.refused(f"The broker has ended the connection: {name_of(PacketTypes.DISCONNECT, packet[0])}")
        return LOST

    def _handle_pubackcomp(self, cmd: str) -> int:
        packet = self._in_packet["packet"]
        number, code = int.from_bytes(packet[:2], "big"), packet[2] if len(packet) > 2 else 0
        with self._out_message_mutex:
            result: int = self._do_on_publish(number) if number in self._out_messages else DONE
        self._handlers.received(number, code)
        return result

    def _handle_publish(self) -> int:
        opening, packet = self._openings, bytes(self._in_packet["packet"])
        topic, number, payload = read_publish(packet, self._in_packet["command"] >> 1 & 3)

        def acknowledge() -> None:
            if number is not None and opening == self._openings:
                self._send_puback(number)
        if topic is None:
            acknowledge()
        else:
            self._handlers.arrived(Arrival(topic, payload, number), acknowledge)
        return DONE


def read_publish(packet: bytes, quality: int) -> tuple[str | None, int | None, bytes]:
    """Return topic, number and payload of a PUBLISH packet. The topic is None if the packet is malformed behind its number. Raise
    `ValueError` if it has no number that can be read."""
    place = 2 + int.from_bytes(packet[:2], "big")
    behind = place + (2 if quality else 0)
    if behind > len(packet):
        raise ValueError("a message from the broker has no number")
    number = int.from_bytes(packet[place:behind], "big") if quality else None
    try:
        return packet[2:place].decode(), number, packet[behind_properties(packet, behind):]
    except ValueError:
        return None, number, b""


def behind_properties(packet: bytes, place: int) -> int:
    """Return the place behind the properties of a packet, which begin with their length. Raise `ValueError` if they do not end."""
    length, shift = 0, 0
    while True:
        if place >= len(packet) or shift > 21:
            raise ValueError("the properties of a packet do not end")
        byte = packet[place]
        length, shift, place = length | (byte & 127) << shift, shift + 7, place + 1
        if byte < 128:
            break
    if place + length > len(packet):
        raise ValueError("the properties of a packet do not end")
    return place + length


def explain_refusal(code: int) -> str:
    """Return a sentence that says why a broker refused the connection, given the code in its answer."""
    if code in (OLD_PROTOCOL, OTHER_PROTOCOL):
        return "The broker does not know MQTT 5, which live needs: update the broker (mosquitto knows it from version 1.6 on)"
    return f"The broker refused the connection: {name_of(PacketTypes.CONNACK, code)}"


def name_of_receipt(code: int) -> str:
    """Return the name of a reason code with which a broker receives a message."""
    return name_of(PacketTypes.PUBACK, code)


def name_of(packet_type: int, code: int) -> str:
    """Return the name of a reason code in a packet of this type; its number if paho has no name for it."""
    names: Mapping[str, Sequence[int]] = ReasonCodes(packet_type, "Unspecified error").names.get(code, {})
    return next((name for name, types in names.items() if packet_type in types), next(iter(names), f"reason {code}"))


def check_version() -> None:
    """Raise `CannotStart` if paho has another version than the one whose methods `Client` replaces."""
    if paho.mqtt.__version__.rpartition(".")[0] != PAHO:
        raise CannotStart(f"live needs version {PAHO} of python3-paho-mqtt, as Debian 12 has it, not {paho.mqtt.__version__}")


def broker_of(said: str) -> tuple[str, int]:
    """Return host and port of a text HOST:PORT. Raise `CannotStart` if it has another form."""
    host, _, port = said.rpartition(":")
    if not (host and port.isdecimal() and 1 <= int(port) <= 65_535):
        raise CannotStart(f"--broker must be HOST:PORT, not {said}")
    return host, int(port)


def needs_tls(options: argparse.Namespace) -> bool:
    """Return whether the connection to the broker uses TLS. Raise `CannotStart` if a broker on another host has no user or password."""
    host = options.broker.rpartition(":")[0]
    is_here = host in ("127.0.0.1", "::1", "localhost")
    if not is_here and not (options.broker_user and options.broker_password):
        raise CannotStart("a broker on another host must use TLS and a password: give --broker-user and --broker-password")
    return not is_here or options.broker_authority is not None
