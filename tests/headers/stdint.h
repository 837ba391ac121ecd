/* The kit's compiler comes without C headers: these few lines stand in for one, for the tests alone. */
#ifndef TESTS_STDINT_H
#define TESTS_STDINT_H
typedef __UINT8_TYPE__ uint8_t;
typedef __INT32_TYPE__ int32_t;
typedef __UINT32_TYPE__ uint32_t;
typedef __INT64_TYPE__ int64_t;
typedef __UINT64_TYPE__ uint64_t;
#endif
