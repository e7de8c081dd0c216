// What is taken of avian (commit 2c2d6934e3) and what is changed in it.

/// Path under avian's `src` and SHA-256 of the file as published.
pub const FILES: &[(&str, &str)] = &[
    (
        "dynamics/joints/fixed.rs",
        "d8f787e89f4583434bb569bba9270b966ed1ee0dae159c58e4a9c40688b18b7a",
    ),
    (
        "dynamics/joints/mod.rs",
        "dd682e0b8cbf5fdb1e657844cf5a92fb606280f5d377d3fb41026a2518ba984d",
    ),
    (
        "dynamics/joints/motor.rs",
        "f609cccc1bd92cf86ae63228cc660da3eb0c1896ecbde4c2865cab3f3ad70c2d",
    ),
    (
        "dynamics/joints/prismatic.rs",
        "9600cb327d8d1d192079749b0421faa3c89da3ea5b0c6935ded6c77fb27ee4a2",
    ),
    (
        "dynamics/joints/revolute.rs",
        "e29cad724e51c5e17ef8b61eb3da024109bef57378f1b4c7b2f2c0ae9b3276a2",
    ),
    (
        "dynamics/joints/spherical.rs",
        "abc7c5644e4a9d336ef9d380303efabeaf50f88051833a4a93207787fceccd2f",
    ),
    (
        "dynamics/solver/solver_body/mod.rs",
        "3ed48fae6ea8d76037e5b466b427a47d94357aa1f86352bdde353b9eca9f69ca",
    ),
    (
        "dynamics/solver/xpbd/angular_constraint.rs",
        "a624f404df808652ded5978d1fa2b4326ef79f9978db5a44b8654f9f2d7b5026",
    ),
    (
        "dynamics/solver/xpbd/joints/distance.rs",
        "796312583b89adff92380700d6cc281c7321aa9498470b9b92e31206cb439c71",
    ),
    (
        "dynamics/solver/xpbd/joints/fixed.rs",
        "b422ebebd4a6fdb85639a88f63e0b91cd36fbd41452c052eb1e983ab48828d8f",
    ),
    (
        "dynamics/solver/xpbd/joints/prismatic.rs",
        "0834a72905d36c5ce81d2de48a0a02b1dda243d2f975a50f0170dc6a3ccc5393",
    ),
    (
        "dynamics/solver/xpbd/joints/revolute.rs",
        "e978a9f5511778b0e4e151c02c45969f44e08dc39865fd1ec8fcebff0fa2ba94",
    ),
    (
        "dynamics/solver/xpbd/joints/shared/fixed_angle_constraint.rs",
        "cc4622057ec632524160499f59c909031d48af543ea13cc31b4cb61e71eddce5",
    ),
    (
        "dynamics/solver/xpbd/joints/shared/point_constraint.rs",
        "aab8f238db4839caaffea08609e12040a9012b875166af433be282f196665d45",
    ),
    (
        "dynamics/solver/xpbd/joints/spherical.rs",
        "6fcd446d2a5799dc66bd53fdbd4e3ef035257e5ee1b826fc887cb4cc9026c590",
    ),
    (
        "dynamics/solver/xpbd/mod.rs",
        "f8cd607658ba1584297371c4a9a4ec6fe1390f1049c6836d47b9a5856f555553",
    ),
    (
        "dynamics/solver/xpbd/plugin.rs",
        "bcc242edb12bc95ca4a18915a5bb4df10b205985e93deba44f67ebe1ef05f838",
    ),
    (
        "dynamics/solver/xpbd/positional_constraint.rs",
        "47c3c5eb37591f26c0b423ead7ce1621c1d29ec2abdf8c1f6205743089179b0c",
    ),
];

pub struct Edit {
    pub file: &'static str,
    pub from: &'static str,
    pub to: &'static str,
    /// How often `from` stands in the file.
    pub count: usize,
}

// Arithmetic: these would be the machine's own functions of f32, whose answers document 01 does not leave to it.
const SQUARE: &str = ".powi(2)";
const SQUARE_BY_RULE: &str = ".squared()";

pub const EDITS: &[Edit] = &[
    Edit {
        file: "dynamics/joints/mod.rs",
        from: ".asin()",
        to: ".arc_sine()",
        count: 1,
    },
    Edit {
        file: "dynamics/solver/xpbd/joints/revolute.rs",
        from: ".atan2(",
        to: ".arc_tangent(",
        count: 1,
    },
    Edit {
        file: "dynamics/solver/xpbd/mod.rs",
        from: SQUARE,
        to: SQUARE_BY_RULE,
        count: 2,
    },
    Edit {
        file: "dynamics/solver/xpbd/positional_constraint.rs",
        from: SQUARE,
        to: SQUARE_BY_RULE,
        count: 2,
    },
    Edit {
        file: "dynamics/solver/xpbd/angular_constraint.rs",
        from: SQUARE,
        to: SQUARE_BY_RULE,
        count: 2,
    },
    // Visibility: called from outside of their files, as the framework's schedule does, or to compare the motor alone.
    Edit {
        file: "dynamics/solver/xpbd/plugin.rs",
        from: "\nfn project_linear_velocity(",
        to: "\npub fn project_linear_velocity(",
        count: 1,
    },
    Edit {
        file: "dynamics/solver/xpbd/plugin.rs",
        from: "\nfn project_angular_velocity(",
        to: "\npub fn project_angular_velocity(",
        count: 2,
    },
    Edit {
        file: "dynamics/solver/xpbd/mod.rs",
        from: "\nmod plugin;\n",
        to: "\npub mod plugin;\n",
        count: 1,
    },
    Edit {
        file: "dynamics/solver/xpbd/joints/revolute.rs",
        from: "    fn compute_angular_motor_lagrange(",
        to: "    pub fn compute_angular_motor_lagrange(",
        count: 1,
    },
];
