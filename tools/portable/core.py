"""The functions of the kit's library `core` that the C file has, those that `?` calls. rt writes out none of them with the proofs, so each is stated here, by what its
contract in core's sources promises, with the types that it names; same.py holds the printed ones to these."""

RESULT = '(entry "core::result::Result" (list a_type a_type) (variants (list (list (ty_param 0)) (list (ty_param 1)))))'
ERROR = '(entry "core::result::ErrResidual" (list a_type) (fields (list (ty_param 0))))'
OPTION = '(entry "core::option::Option" (list a_type) (variants (list (list) (list (ty_param 0)))))'
NO_VALUE = '(entry "core::option::NoValue" (list) (fields (list)))'
FLOW = '(entry "core::ops::ControlFlow" (list a_type a_type) (variants (list (list (ty_param 1)) (list (ty_param 0)))))'

# What the contract promises, and the function that keeps it. Variant 0 is Ok, None and Continue, variant 1 Err, Some and Break.
CORE = [
    (
        "by from_gives, from of a type to itself is the value that it is given",
        """
        (fn_def "core::convert::AnyFrom::from"
          (function 0 (list) (list a_type) 0 1
            (list (local (ty_param 0) value_local) (local (ty_param 0) value_local))
            (seq (assign (place 0 (list)) (rv_opd (copy (place 1 (list))))) return))
          (list))
        """,
    ),
    (
        "by branch_gives, branch of Ok(x) is Continue(x), and of Err(e) Break of the residual that holds e",
        """
        (fn_def "core::result::ResultTry::branch"
          (function 0 (list) (list a_type a_type) 0 1
            (list
              (local (ty_named "core::ops::ControlFlow" (list) (list (ty_named "core::result::ErrResidual" (list) (list (ty_param 1))) (ty_param 0))) value_local)
              (local (ty_named "core::result::Result" (list) (list (ty_param 0) (ty_param 1))) value_local)
              (local (ty_param 0) value_local)
              (local (ty_param 1) value_local)
              (local (ty_named "core::ops::ControlFlow" (list) (list (ty_named "core::result::ErrResidual" (list) (list (ty_param 1))) (ty_param 0))) value_local)
              (local (ty_param 0) value_local)
              (local (ty_param 1) value_local)
              (local (ty_named "core::result::ErrResidual" (list) (list (ty_param 1))) value_local))
            (seq
              (switch (copy (place 1 (list (variant 0) (field 0))))
                (arm (list 0)
                  (seq (assign (place 2 (list)) (rv_opd (copy (place 1 (list (variant 0) (field 1))))))
                  (seq (assign (place 5 (list)) (rv_opd (copy (place 2 (list)))))
                  (assign (place 4 (list)) (aggregate (list (int w8 0) (copy (place 5 (list))))))))
                (arm (list 1)
                  (seq (assign (place 3 (list)) (rv_opd (copy (place 1 (list (variant 1) (field 1))))))
                  (seq (assign (place 6 (list)) (rv_opd (copy (place 3 (list)))))
                  (seq (assign (place 7 (list)) (aggregate (list (copy (place 6 (list))))))
                  (assign (place 4 (list)) (aggregate (list (int w8 1) (copy (place 7 (list)))))))))
                no_default)))
              (seq (assign (place 0 (list)) (rv_opd (copy (place 4 (list))))) return)))
        """
        + "(list %s %s %s))" % (FLOW, ERROR, RESULT),
    ),
    (
        "by from_residual_gives, from_residual of what holds e is Err of what the bound's from gives of e",
        """
        (fn_def "core::result::ResultFromResidualErrResidual::from_residual"
          (function 0 (list) (list a_type a_type a_type) 1 1
            (list
              (local (ty_named "core::result::Result" (list) (list (ty_param 0) (ty_param 2))) value_local)
              (local (ty_named "core::result::ErrResidual" (list) (list (ty_param 1))) value_local)
              (local (ty_param 2) value_local)
              (local (ty_param 1) value_local))
            (seq (assign (place 3 (list)) (rv_opd (copy (place 1 (list (field 0))))))
            (seq (call (method (given 0) 0 no_args) (list (copy (place 3 (list)))) (place 2 (list)))
            (seq (assign (place 0 (list)) (aggregate (list (int w8 1) (copy (place 2 (list)))))) return))))
        """
        + "(list %s %s))" % (RESULT, ERROR),
    ),
    (
        "by branch_gives, branch of Some(x) is Continue(x), and of None Break of no value",
        """
        (fn_def "core::option::OptionTry::branch"
          (function 0 (list) (list a_type) 0 1
            (list
              (local (ty_named "core::ops::ControlFlow" (list) (list (ty_named "core::option::NoValue" (list) (list)) (ty_param 0))) value_local)
              (local (ty_named "core::option::Option" (list) (list (ty_param 0))) value_local)
              (local (ty_param 0) value_local)
              (local (ty_named "core::ops::ControlFlow" (list) (list (ty_named "core::option::NoValue" (list) (list)) (ty_param 0))) value_local)
              (local (ty_param 0) value_local)
              (local (ty_named "core::option::NoValue" (list) (list)) value_local))
            (seq
              (switch (copy (place 1 (list (variant 0) (field 0))))
                (arm (list 1)
                  (seq (assign (place 2 (list)) (rv_opd (copy (place 1 (list (variant 1) (field 1))))))
                  (seq (assign (place 4 (list)) (rv_opd (copy (place 2 (list)))))
                  (assign (place 3 (list)) (aggregate (list (int w8 0) (copy (place 4 (list))))))))
                (arm (list 0)
                  (seq (assign (place 5 (list)) (aggregate (list)))
                  (assign (place 3 (list)) (aggregate (list (int w8 1) (copy (place 5 (list)))))))
                no_default)))
              (seq (assign (place 0 (list)) (rv_opd (copy (place 3 (list))))) return)))
        """
        + "(list %s %s %s))" % (FLOW, NO_VALUE, OPTION),
    ),
    (
        "by from_residual_gives, from_residual of no value is None",
        """
        (fn_def "core::option::OptionFromResidualNoValue::from_residual"
          (function 0 (list) (list a_type) 0 1
            (list (local (ty_named "core::option::Option" (list) (list (ty_param 0))) value_local) (local (ty_named "core::option::NoValue" (list) (list)) value_local))
            (seq (assign (place 0 (list)) (aggregate (list (int w8 0)))) return))
        """
        + "(list %s %s))" % (OPTION, NO_VALUE),
    ),
]
