"""The tutorial's IDL, as the program holds it, for clients that are made from it."""

TUTORIAL = """include "shared.thrift"
typedef i32 MyInteger
enum Operation { ADD = 1, SUBTRACT = 2, MULTIPLY = 3, DIVIDE = 4 }
struct Work { 1: i32 num1 = 0, 2: i32 num2, 3: Operation op, 4: optional string comment }
exception InvalidOperation { 1: i32 whatOp, 2: string why }
service Calculator extends shared.SharedService {
  void ping(), i32 add(1:i32 num1, 2:i32 num2)
  i32 calculate(1:i32 logid, 2:Work w) throws (1:InvalidOperation ouch)
  oneway void zip()
}
"""
SHARED = """struct SharedStruct { 1: i32 key 2: string value }
service SharedService { SharedStruct getStruct(1: i32 key) }
"""
