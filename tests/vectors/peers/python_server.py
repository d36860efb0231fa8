#!/usr/bin/python3
"""A server of the Workload API's methods by python3-grpcio, whose answers are fixed bytes: record.py records what it writes."""
import sys
from concurrent import futures

import grpc

import answers


def stream(messages, status):
    def handle(request, context):
        yield from messages
        if status:
            context.abort(grpc.StatusCode.__members__[status[0]], status[1])
    return grpc.unary_stream_rpc_method_handler(handle)


def unary(message, status):
    def handle(request, context):
        if status:
            context.abort(grpc.StatusCode.__members__[status[0]], status[1])
        return message
    return grpc.unary_unary_rpc_method_handler(handle)


def main(path):
    server = grpc.server(futures.ThreadPoolExecutor(max_workers=4))
    for case in answers.CASES:
        service, method = case.path.strip("/").split("/")
        handler = stream(case.messages, case.status) if case.streams else unary(case.messages[0] if case.messages else b"", case.status)
        server.add_generic_rpc_handlers((grpc.method_handlers_generic_handler(f"{case.name}.{service}", {method: handler}),))
    server.add_insecure_port("unix:" + path)
    server.start()
    server.wait_for_termination()


main(sys.argv[1])
