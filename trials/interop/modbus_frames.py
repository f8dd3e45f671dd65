#!/usr/bin/env python3
"""Prints Modbus frames made by pymodbus, one a line: request or reply, the function, and the frame in hex.

    /usr/bin/python3 modbus_frames.py

The table test of crates/modbus_forms holds these lines' bytes. The places, quantities and values are those of the
examples in the Modbus Application Protocol Specification V1.1b3, sections 6.1 to 6.6, 6.11 and 6.12; the
transactions are 1, 2, .. and the unit is 17.
"""
from pymodbus.bit_read_message import (
    ReadCoilsRequest, ReadCoilsResponse, ReadDiscreteInputsRequest, ReadDiscreteInputsResponse)
from pymodbus.bit_write_message import (
    WriteMultipleCoilsRequest, WriteMultipleCoilsResponse, WriteSingleCoilRequest, WriteSingleCoilResponse)
from pymodbus.factory import ServerDecoder
from pymodbus.pdu import ExceptionResponse
from pymodbus.register_read_message import (
    ReadHoldingRegistersRequest, ReadHoldingRegistersResponse, ReadInputRegistersRequest, ReadInputRegistersResponse)
from pymodbus.register_write_message import (
    WriteMultipleRegistersRequest, WriteMultipleRegistersResponse, WriteSingleRegisterRequest,
    WriteSingleRegisterResponse)
from pymodbus.transaction import ModbusSocketFramer


def bits(text):
    return [c == "1" for c in text]


def framed(message, transaction):
    message.transaction_id = transaction
    message.unit_id = 17
    return ModbusSocketFramer(ServerDecoder()).buildPacket(message).hex()


REQUESTS = [
    ReadCoilsRequest(0x13, 0x13),
    ReadDiscreteInputsRequest(0xC4, 0x16),
    ReadHoldingRegistersRequest(0x6B, 3),
    ReadInputRegistersRequest(8, 1),
    WriteSingleCoilRequest(0xAC, True),
    WriteSingleRegisterRequest(1, 3),
    WriteMultipleCoilsRequest(0x13, bits("1011001110")),
    WriteMultipleRegistersRequest(1, [0x000A, 0x0102]),
]
REPLIES = [
    ReadCoilsResponse(bits("1011001111010110101")),
    ReadDiscreteInputsResponse(bits("0011010111011011101011")),
    ReadHoldingRegistersResponse([0x022B, 0, 0x64]),
    ReadInputRegistersResponse([0x0A]),
    WriteSingleCoilResponse(0xAC, True),
    WriteSingleRegisterResponse(1, 3),
    WriteMultipleCoilsResponse(0x13, 10),
    WriteMultipleRegistersResponse(1, 2),
    ExceptionResponse(1, 2),
    ExceptionResponse(7, 1),
]

for number, message in enumerate(REQUESTS, 1):
    print("request", message.function_code, framed(message, number))
for number, message in enumerate(REPLIES, 1):
    print("reply", message.function_code, framed(message, number))
