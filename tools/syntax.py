"""The types of the syntax tree: a tree's text, as expected readings tell it, and the tree as plain data (core.py).

`Name(fields)` is a struct, `Name = Variant(fields) | ..` an enum. A field is a type, `?T` an optional one, `*T` a list
of them, `number`, `flag`, `place` (two indexes), `N` and `U` (a component of that list), `width` (that is a component).
"""
import re

import antt
import core

TYPES = """
SeqId(number)
TemplateParam(number)
Discriminator(number)
UnscopedTemplateName(UnscopedName)
SourceName(Identifier)
AbiTag(SourceName)
AbiTags(*AbiTag)
DataMemberPrefix(SourceName)
Identifier(place)
CloneTypeIdentifier(place)
ResourceName(place)
CloneSuffix(CloneTypeIdentifier, *number)
NvOffset(number)
VOffset(number, number)
CvQualifiers(flag, flag, flag)
FunctionType(CvQualifiers, ?ExceptionSpec, flag, flag, BareFunctionType, ?RefQualifier)
BareFunctionType(*TypeHandle)
LambdaSig(*TypeHandle)
UnnamedTypeName(?number)
ClosureTypeName(LambdaSig, ?number)
PointerToMemberType(TypeHandle, TypeHandle)
TemplateTemplateParam(TemplateParam)
FunctionParam(number, CvQualifiers, ?number)
MemberName(Name)
Initializer(*Expression)
UnresolvedQualifierLevel(SimpleId)
SimpleId(SourceName, ?TemplateArgs)
SubobjectExpr(TypeHandle, Expression, number)
TypeHandle = WellKnown(WellKnownComponent) | BackReference(N) | Builtin(BuiltinType)
PrefixHandle = WellKnown(WellKnownComponent) | BackReference(N) | NonSubstitution(U)
UnscopedTemplateNameHandle = WellKnown(WellKnownComponent) | BackReference(N) | NonSubstitution(U)
TemplateTemplateParamHandle = WellKnown(WellKnownComponent) | BackReference(N)
UnresolvedTypeHandle = WellKnown(WellKnownComponent) | BackReference(N)
Substitution = WellKnown(WellKnownComponent) | BackReference(N)
MangledName = Encoding(Encoding, *CloneSuffix) | BlockInvoke(Encoding, ?number) | TopLevelType(TypeHandle)
  | GlobalCtorDtor(GlobalCtorDtor)
Encoding = Function(Name, BareFunctionType) | Data(Name) | Special(SpecialName)
GlobalCtorDtor = Ctor(MangledName) | Dtor(MangledName)
Name = Nested(NestedName) | Unscoped(UnscopedName) | UnscopedTemplate(UnscopedTemplateNameHandle, TemplateArgs)
  | Local(LocalName)
UnscopedName = Unqualified(UnqualifiedName) | Std(UnqualifiedName)
NestedName = Unqualified(CvQualifiers, ?RefQualifier, ?PrefixHandle, UnqualifiedName)
  | Template(CvQualifiers, ?RefQualifier, PrefixHandle)
  | UnqualifiedExplicitObject(?PrefixHandle, UnqualifiedName, ExplicitObjectParameter)
  | TemplateExplicitObject(PrefixHandle, ExplicitObjectParameter)
UnqualifiedName = Operator(OperatorName, AbiTags) | CtorDtor(CtorDtorName, AbiTags) | Source(SourceName, AbiTags)
  | LocalSourceName(SourceName, ?Discriminator, AbiTags) | UnnamedType(UnnamedTypeName, AbiTags)
  | ClosureType(ClosureTypeName, AbiTags)
OperatorName = Simple(SimpleOperatorName) | Conversion(TypeHandle) | Literal(SourceName)
  | VendorExtension(number, SourceName)
CallOffset = NonVirtual(NvOffset) | Virtual(VOffset)
CtorDtorName = CompleteConstructor(?TypeHandle) | BaseConstructor(?TypeHandle)
  | CompleteAllocatingConstructor(?TypeHandle) | MaybeInChargeConstructor(?TypeHandle)
  | DeletingDestructor | CompleteDestructor | BaseDestructor | MaybeInChargeDestructor
BuiltinType = Standard(StandardBuiltinType) | Parametric(ParametricBuiltinType) | Extension(SourceName)
ParametricBuiltinType = FloatN(number) | FloatNx(number) | SignedBitInt(number) | UnsignedBitInt(number)
  | SignedBitIntExpression(width) | UnsignedBitIntExpression(width)
ExceptionSpec = NoExcept | Computed(Expression)
Decltype = IdExpression(Expression) | Expression(Expression)
ClassEnumType = Named(Name) | ElaboratedStruct(Name) | ElaboratedUnion(Name) | ElaboratedEnum(Name)
ArrayType = DimensionNumber(number, TypeHandle) | DimensionExpression(Expression, TypeHandle) | NoDimension(TypeHandle)
VectorType = DimensionNumber(number, TypeHandle) | DimensionExpression(Expression, TypeHandle)
TemplateArg = TypeArg(TypeHandle) | Expression(Expression) | SimpleExpression(ExprPrimary) | ArgPack(*TemplateArg)
UnresolvedName = Name(BaseUnresolvedName) | Global(BaseUnresolvedName)
  | Nested1(UnresolvedTypeHandle, *UnresolvedQualifierLevel, BaseUnresolvedName)
  | Nested2(*UnresolvedQualifierLevel, BaseUnresolvedName)
  | GlobalNested2(*UnresolvedQualifierLevel, BaseUnresolvedName)
BaseUnresolvedName = Name(SimpleId) | Operator(OperatorName, ?TemplateArgs) | Destructor(DestructorName)
DestructorName = Unresolved(UnresolvedTypeHandle) | Name(SimpleId)
ExprPrimary = Literal(TypeHandle, place) | External(MangledName)
TypeNode = Function(FunctionType) | ClassEnum(ClassEnumType) | Array(ArrayType) | Vector(VectorType)
  | PointerToMember(PointerToMemberType) | TemplateParam(TemplateParam)
  | TemplateTemplate(TemplateTemplateParamHandle, TemplateArgs) | Decltype(Decltype)
  | Qualified(CvQualifiers, TypeHandle) | VendorExtension(SourceName, ?TemplateArgs, TypeHandle)
  | PointerTo(TypeHandle) | LvalueRef(TypeHandle) | RvalueRef(TypeHandle) | Complex(TypeHandle)
  | Imaginary(TypeHandle) | PackExpansion(TypeHandle)
Prefix = Unqualified(UnqualifiedName) | Nested(PrefixHandle, UnqualifiedName) | Template(PrefixHandle, TemplateArgs)
  | TemplateParam(TemplateParam) | Decltype(Decltype) | DataMember(PrefixHandle, DataMemberPrefix)
UnresolvedType = Template(TemplateParam, ?TemplateArgs) | Decltype(Decltype)
Substitutable = UnscopedTemplateName(UnscopedTemplateName) | TypeNode(TypeNode) | UnresolvedType(UnresolvedType)
  | TemplateTemplateParam(TemplateTemplateParam) | Prefix(Prefix) | Expression(Expression)
LocalName = Relative(Encoding, ?Name, ?Discriminator) | Default(Encoding, ?number, Name)
SpecialName = VirtualTable(TypeHandle) | Vtt(TypeHandle) | Typeinfo(TypeHandle) | TypeinfoName(TypeHandle)
  | TypeinfoFunction(TypeHandle) | VirtualOverrideThunk(CallOffset, Encoding)
  | VirtualOverrideThunkCovariant(CallOffset, CallOffset, Encoding) | Guard(Name) | GuardTemporary(Name, number)
  | ConstructionVtable(TypeHandle, number, TypeHandle) | TlsInit(Name) | TlsWrapper(Name)
  | JavaResource(*ResourceName) | TransactionClone(Encoding) | NonTransactionClone(Encoding)
FoldExpr = UnaryLeft(SimpleOperatorName, Expression) | UnaryRight(SimpleOperatorName, Expression)
  | BinaryLeft(SimpleOperatorName, Expression, Expression) | BinaryRight(SimpleOperatorName, Expression, Expression)
Expression = Unary(OperatorName, Expression) | Binary(OperatorName, Expression, Expression)
  | Ternary(OperatorName, Expression, Expression, Expression) | PrefixInc(Expression) | PrefixDec(Expression)
  | Call(Expression, *Expression) | ConversionOne(TypeHandle, Expression) | ConversionMany(TypeHandle, *Expression)
  | ConversionBraced(TypeHandle, *Expression) | BracedInitList(*Expression)
  | New(*Expression, TypeHandle, ?Initializer) | GlobalNew(*Expression, TypeHandle, ?Initializer)
  | NewArray(*Expression, TypeHandle, ?Initializer) | GlobalNewArray(*Expression, TypeHandle, ?Initializer)
  | Delete(Expression) | GlobalDelete(Expression) | DeleteArray(Expression) | GlobalDeleteArray(Expression)
  | DynamicCast(TypeHandle, Expression) | StaticCast(TypeHandle, Expression) | ConstCast(TypeHandle, Expression)
  | ReinterpretCast(TypeHandle, Expression) | TypeidType(TypeHandle) | TypeidExpr(Expression)
  | SizeofType(TypeHandle) | SizeofExpr(Expression) | AlignofType(TypeHandle) | AlignofExpr(Expression)
  | Noexcept(Expression) | Subobject(SubobjectExpr) | TemplateParam(TemplateParam) | FunctionParam(FunctionParam)
  | Member(Expression, MemberName) | DerefMember(Expression, MemberName) | PointerToMember(Expression, Expression)
  | SizeofTemplatePack(TemplateParam) | SizeofFunctionPack(FunctionParam)
  | SizeofCapturedTemplatePack(*TemplateArg) | PackExpansion(Expression) | Fold(FoldExpr) | Throw(Expression)
  | Rethrow | UnresolvedName(UnresolvedName) | Primary(ExprPrimary)
"""
# nodes that are one in every type that has them
SHARED = ("WellKnown", "BackReference", "NonSubstitution")


def types():
    """The fields of each struct, and of each variant of an enum."""
    structs, enums = {}, {}
    for line in TYPES.replace("\n  ", " ").strip().split("\n"):
        name, _, variants = line.partition(" = ")
        shapes = dict(re.findall(r"(\w+)(?:\((.*?)\))?", variants or name))
        shapes = {variant: fields.split(", ") if fields else [] for variant, fields in shapes.items()}
        if variants:
            enums[name] = shapes
        else:
            structs.update(shapes)
    return structs, enums


def words():
    """The words of each table: its number, and the names of its words in order."""
    found = {}
    kinds = {"operator": "SimpleOperatorName", "builtin": "StandardBuiltinType", "component": "WellKnownComponent",
             "ref_qualifier": "RefQualifier"}
    for table, (kind, name) in enumerate(kinds.items()):
        file = "Qualifiers.antt" if kind == "ref_qualifier" else kind.capitalize() + "s.antt"
        clauses = antt.clauses(antt.specs("demangle_vocab", file))
        found[name] = table, [patterns[0] for head, patterns, _ in clauses if head == "number_of_" + kind]
    found["ExplicitObjectParameter"] = 4, ["ExplicitObjectParameter"]
    return found


STRUCTS, ENUMS = types()
WORDS = words()


class NotTold(Exception):
    """A tree that is told in another form than the syntax tree's."""


# ---- a text as a value: numbers, truth values, None, tuples for lists, [name, values] for nodes
def parsed(text):
    tokens = re.findall(r"-?\d+|[A-Za-z_]\w*|[()]", text)
    at = 0

    def values():
        nonlocal at
        found = []
        while tokens[at] != ")":
            found.append(value())
        at += 1
        return found

    def value():
        nonlocal at
        token = tokens[at]
        at += 1
        if token == "(":
            return tuple(values())
        if token[-1].isdigit() and token.lstrip("-").isdigit():
            return int(token)
        if token in ("True", "False", "None"):
            return {"True": True, "False": False, "None": None}[token]
        if at < len(tokens) and tokens[at] == "(":
            at += 1
            return [token, values()]
        return [token, []]

    return value()


# ---- a value as a tree
def tree(kind, value):
    if kind in ("number", "flag"):
        return (kind, value)
    if kind == "width":
        if not isinstance(value, int):
            raise NotTold(kind)
        return core.reference("U", value)
    if kind[0] == "?":
        return core.node("Absent") if value is None else core.node("Present", [tree(kind[1:], value)])
    if kind[0] == "*":
        return core.node("Several", [tree(kind[1:], item) for item in value])
    name, values = value
    if kind in WORDS:
        table, names = WORDS[kind]
        return ("chosen", table, names.index(name))
    if kind == "TemplateArgs":
        return core.node(kind, [("mark", values[1]), tree("*TemplateArg", values[0])])
    if kind in STRUCTS:
        return core.node(kind, fields(STRUCTS[kind], values))
    if name == "BackReference":
        return core.reference("N", values[0])
    if name == "NonSubstitution":
        return core.reference("U", values[0][1][0])
    if name not in ENUMS[kind]:
        raise NotTold(kind + name)
    return core.node(name if name in SHARED else kind + name, fields(ENUMS[kind][name], values))


def fields(kinds, values):
    values, row = list(values), []
    for kind in kinds:
        row.append(("place", values.pop(0), values.pop(0)) if kind == "place" else tree(kind, values.pop(0)))
    assert not values, (kinds, values)
    return row


def tree_of(kind, text):
    return tree(kind, parsed(text))


# ---- a tree as a text
def told(kind, tree):
    if kind in ("number", "flag"):
        return str(tree[1])
    if kind == "place":
        return "%d, %d" % tree[1:]
    if kind == "width":
        return str(tree[2][0][2])
    if kind in WORDS:
        return WORDS[kind][1][tree[2]]
    tag, children = tree[1:]
    if kind[0] == "?":
        return "None" if tag == "Absent" else told(kind[1:], children[0])
    if kind[0] == "*":
        return "(%s)" % "".join(told(kind[1:], child) + ", " for child in children).strip(" ")
    if kind == "TemplateArgs":
        return "TemplateArgs(%s, %d)" % (told("*TemplateArg", children[1]), children[0][1])
    if tag == "BackReference":
        return "BackReference(%d)" % children[0][2]
    if tag == "NonSubstitution":
        return "NonSubstitution(NonSubstitution(%d))" % children[0][2]
    if kind in STRUCTS:
        return named(kind, STRUCTS[kind], children)
    variant = tag if tag in SHARED else tag[len(kind):]
    return named(variant, ENUMS[kind][variant], children)


def named(name, kinds, children):
    texts = ", ".join(told(kind, child) for kind, child in zip(kinds, children))
    return "%s(%s)" % (name, texts) if kinds else name
