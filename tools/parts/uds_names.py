"""The names of ISO 14229-1:2013 for services, sub-functions, identifiers, routines and negative response codes: the one table
of them, which the tools read; docs/VIEW.md shows those of services and of codes. No part of what is proved.

    python3 tools/parts/uds_names.py     prints the tables as docs/VIEW.md has them
"""
from dataclasses import dataclass, field


@dataclass(frozen=True)
class Service:
    """A service's name, and the names of its sub-functions."""

    name: str
    subs: dict[int, str] = field(default_factory=dict)


def seeds_and_keys(first: int, last: int) -> dict[int, str]:
    """The sub-functions of SecurityAccess from the first to the last one."""
    return {sub: "requestSeed" if sub % 2 else "sendKey" for sub in range(first, last + 1)}


# the services that the unit has, by their identifiers
SERVICES = {
    0x10: Service(
        "DiagnosticSessionControl",
        {1: "defaultSession", 2: "programmingSession", 3: "extendedDiagnosticSession", 4: "safetySystemDiagnosticSession"},
    ),
    0x11: Service("ECUReset", {1: "hardReset", 2: "keyOffOnReset", 3: "softReset"}),
    0x14: Service("ClearDiagnosticInformation"),
    0x19: Service(
        "ReadDTCInformation",
        {1: "reportNumberOfDTCByStatusMask", 2: "reportDTCByStatusMask", 0x0A: "reportSupportedDTC"},
    ),
    0x22: Service("ReadDataByIdentifier"),
    0x27: Service("SecurityAccess", seeds_and_keys(1, 0x42)),
    0x2E: Service("WriteDataByIdentifier"),
    0x31: Service("RoutineControl", {1: "startRoutine", 2: "stopRoutine", 3: "requestRoutineResults"}),
    0x3E: Service("TesterPresent", {0: "zeroSubFunction"}),
    0x85: Service("ControlDTCSetting", {1: "on", 2: "off"}),
}
# those that want a session other than the default one
IN_SESSION = (0x27, 0x2E, 0x31, 0x85)
# services that a tester may ask for and the unit hasn't
OTHERS = {
    0x23: "ReadMemoryByAddress",
    0x24: "ReadScalingDataByIdentifier",
    0x28: "CommunicationControl",
    0x2A: "ReadDataByPeriodicIdentifier",
    0x2C: "DynamicallyDefineDataIdentifier",
    0x2F: "InputOutputControlByIdentifier",
    0x34: "RequestDownload",
    0x35: "RequestUpload",
    0x36: "TransferData",
    0x37: "RequestTransferExit",
    0x38: "RequestFileTransfer",
    0x3D: "WriteMemoryByAddress",
    0x83: "AccessTimingParameter",
    0x84: "SecuredDataTransmission",
    0x86: "ResponseOnEvent",
    0x87: "LinkControl",
}
# sub-functions that a tester may ask for and the unit hasn't, by their services
OTHER_SUBS = {
    0x11: {4: "enableRapidPowerShutDown", 5: "disableRapidPowerShutDown"},
    0x19: {
        3: "reportDTCSnapshotIdentification",
        4: "reportDTCSnapshotRecordByDTCNumber",
        5: "reportDTCStoredDataByRecordNumber",
        6: "reportDTCExtDataRecordByDTCNumber",
        7: "reportNumberOfDTCBySeverityMaskRecord",
        8: "reportDTCBySeverityMaskRecord",
        9: "reportSeverityInformationOfDTC",
        0x0B: "reportFirstTestFailedDTC",
        0x0C: "reportFirstConfirmedDTC",
        0x0D: "reportMostRecentTestFailedDTC",
        0x0E: "reportMostRecentConfirmedDTC",
        0x0F: "reportMirrorMemoryDTCByStatusMask",
        0x10: "reportMirrorMemoryDTCExtDataRecordByDTCNumber",
        0x11: "reportNumberOfMirrorMemoryDTCByStatusMask",
        0x12: "reportNumberOfEmissionsOBDDTCByStatusMask",
        0x13: "reportEmissionsOBDDTCByStatusMask",
        0x14: "reportDTCFaultDetectionCounter",
        0x15: "reportDTCWithPermanentStatus",
        0x16: "reportDTCExtDataRecordByRecordNumber",
        0x17: "reportUserDefMemoryDTCByStatusMask",
        0x18: "reportUserDefMemoryDTCSnapshotRecordByDTCNumber",
        0x19: "reportUserDefMemoryDTCExtDataRecordByDTCNumber",
        0x42: "reportWWHOBDDTCByMaskRecord",
        0x55: "reportWWHOBDDTCWithPermanentStatus",
    },
    # (those of ISO 26021-2 and of suppliers; 43 to 5E are reserved)
    0x27: seeds_and_keys(0x5F, 0x7E),
    0x28: {
        0: "enableRxAndTx",
        1: "enableRxAndDisableTx",
        2: "disableRxAndEnableTx",
        3: "disableRxAndTx",
        4: "enableRxAndDisableTxWithEnhancedAddressInformation",
        5: "enableRxAndTxWithEnhancedAddressInformation",
    },
    0x2C: {1: "defineByIdentifier", 2: "defineByMemoryAddress", 3: "clearDynamicallyDefinedDataIdentifier"},
    0x83: {
        1: "readExtendedTimingParameterSet",
        2: "setTimingParametersToDefaultValues",
        3: "readCurrentlyActiveTimingParameters",
        4: "setTimingParametersToGivenValues",
    },
    0x86: {
        0: "stopResponseOnEvent",
        1: "onDTCStatusChange",
        2: "onTimerInterrupt",
        3: "onChangeOfDataIdentifier",
        4: "reportActivatedEvents",
        5: "startResponseOnEvent",
        6: "clearResponseOnEvent",
        7: "onComparisonOfValues",
    },
    0x87: {
        1: "verifyModeTransitionWithFixedParameter",
        2: "verifyModeTransitionWithSpecificParameter",
        3: "transitionMode",
    },
}
# the bits of a sub-function that aren't of its name: bit 7 suppresses the positive response; bit 6 of ResponseOnEvent
# says whether the event is stored
OF_NAME, OF_EVENT = 0x7F, 0x3F
# the identifiers that ISO 14229-1:2013 gives a name to (annex C.1)
IDENTIFIERS = {
    0xF180: "bootSoftwareIdentification",
    0xF181: "applicationSoftwareIdentification",
    0xF182: "applicationDataIdentification",
    0xF183: "bootSoftwareFingerprint",
    0xF184: "applicationSoftwareFingerprint",
    0xF185: "applicationDataFingerprint",
    0xF186: "activeDiagnosticSession",
    0xF187: "vehicleManufacturerSparePartNumber",
    0xF188: "vehicleManufacturerECUSoftwareNumber",
    0xF189: "vehicleManufacturerECUSoftwareVersionNumber",
    0xF18A: "systemSupplierIdentifier",
    0xF18B: "ECUManufacturingDate",
    0xF18C: "ECUSerialNumber",
    0xF18D: "supportedFunctionalUnits",
    0xF18E: "vehicleManufacturerKitAssemblyPartNumber",
    0xF190: "VIN",
    0xF191: "vehicleManufacturerECUHardwareNumber",
    0xF192: "systemSupplierECUHardwareNumber",
    0xF193: "systemSupplierECUHardwareVersionNumber",
    0xF194: "systemSupplierECUSoftwareNumber",
    0xF195: "systemSupplierECUSoftwareVersionNumber",
    0xF196: "exhaustRegulationOrTypeApprovalNumber",
    0xF197: "systemNameOrEngineType",
    0xF198: "repairShopCodeOrTesterSerialNumber",
    0xF199: "programmingDate",
    0xF19A: "calibrationRepairShopCodeOrCalibrationEquipmentSerialNumber",
    0xF19B: "calibrationDate",
    0xF19C: "calibrationEquipmentSoftwareNumber",
    0xF19D: "ECUInstallationDate",
    0xF19E: "ODXFile",
    0xF19F: "entityDataIdentifier",
    0xFA10: "numberOfEDRDevices",
    0xFA11: "EDRIdentification",
    0xFA12: "EDRDeviceAddressInformation",
    0xFF00: "UDSVersion",
}
# those that have a name together: the first, the last, the name
IDENTIFIER_RANGES = [
    (0xF200, 0xF2FF, "periodicDataIdentifier"),
    (0xF300, 0xF3FF, "dynamicallyDefinedDataIdentifier"),
    (0xF400, 0xF5FF, "OBDDataIdentifier"),
    (0xF600, 0xF7FF, "OBDMonitorDataIdentifier"),
    (0xF800, 0xF8FF, "OBDInfoTypeDataIdentifier"),
    (0xF900, 0xF9FF, "tachographDataIdentifier"),
    (0xFA00, 0xFA0F, "airbagDeploymentDataIdentifier"),
    (0xFA13, 0xFA18, "EDREntries"),
    (0xFA19, 0xFAFF, "safetySystemDataIdentifier"),
]
# the routines that it gives a name to (annex F.1), and those that have a name together
ROUTINES = {0xFF00: "eraseMemory", 0xFF01: "checkProgrammingDependencies", 0xFF02: "eraseMirrorMemoryDTCs"}
OF_MANUFACTURER = "vehicleManufacturerSpecific"
ROUTINE_RANGES = [
    (0x0100, 0x01FF, "tachographTestIds"),
    (0x0200, 0xDFFF, OF_MANUFACTURER),
    (0xE000, 0xE1FF, "OBDTestIds"),
    (0xE202, 0xE2FF, "safetySystemRoutineIDs"),
    (0xF000, 0xFEFF, "systemSupplierSpecific"),
]
# the negative response codes that the unit gives
NEGATIVE = {
    0x11: "serviceNotSupported",
    0x12: "subFunctionNotSupported",
    0x13: "incorrectMessageLengthOrInvalidFormat",
    0x14: "responseTooLong",
    0x21: "busyRepeatRequest",
    0x22: "conditionsNotCorrect",
    0x24: "requestSequenceError",
    0x31: "requestOutOfRange",
    0x33: "securityAccessDenied",
    0x35: "invalidKey",
    0x36: "exceedNumberOfAttempts",
    0x37: "requiredTimeDelayNotExpired",
    0x78: "requestCorrectlyReceived-ResponsePending",
    0x7F: "serviceNotSupportedInActiveSession",
}
# those that another unit may give (annex A.1)
OTHER_NEGATIVE = {
    0x10: "generalReject",
    0x25: "noResponseFromSubnetComponent",
    0x26: "failurePreventsExecutionOfRequestedAction",
    0x70: "uploadDownloadNotAccepted",
    0x71: "transferDataSuspended",
    0x72: "generalProgrammingFailure",
    0x73: "wrongBlockSequenceCounter",
    0x7E: "subFunctionNotSupportedInActiveSession",
    0x81: "rpmTooHigh",
    0x82: "rpmTooLow",
    0x83: "engineIsRunning",
    0x84: "engineIsNotRunning",
    0x85: "engineRunTimeTooLow",
    0x86: "temperatureTooHigh",
    0x87: "temperatureTooLow",
    0x88: "vehicleSpeedTooHigh",
    0x89: "vehicleSpeedTooLow",
    0x8A: "throttle/PedalTooHigh",
    0x8B: "throttle/PedalTooLow",
    0x8C: "transmissionRangeNotInNeutral",
    0x8D: "transmissionRangeNotInGear",
    0x8F: "brakeSwitch(es)NotClosed",
    0x90: "shifterLeverNotInPark",
    0x91: "torqueConverterClutchLocked",
    0x92: "voltageTooHigh",
    0x93: "voltageTooLow",
}
# those that have a name together
NEGATIVE_RANGES = [
    (0x38, 0x4F, "reservedByExtendedDataLinkSecurityDocument"),
    (0x94, 0xEF, "reservedForSpecificConditionsNotCorrect"),
    (0xF0, 0xFE, "vehicleManufacturerSpecificConditionsNotCorrect"),
]


def name_in(ranges: list[tuple[int, int, str]], number: int, unknown: str = "") -> str:
    """The name of the range that a number is in, or what it is called without one."""
    return next((name for first, last, name in ranges if first <= number <= last), unknown)


def identifier_name(number: int) -> str:
    """The name of a data identifier; empty where it has none."""
    return IDENTIFIERS.get(number) or name_in(IDENTIFIER_RANGES, number)


def routine_name(number: int) -> str:
    """The name of a routine identifier; empty where it has none."""
    return ROUTINES.get(number) or name_in(ROUTINE_RANGES, number)


def service_name(sid: int) -> str:
    """The service's name, or what it is called without one."""
    return SERVICES[sid].name if sid in SERVICES else OTHERS.get(sid, f"service {sid:02X}")


def sub_name(sid: int, sub: int) -> str:
    """The name of a sub-function, without its bit 7; empty where it has none."""
    own = SERVICES[sid].subs if sid in SERVICES else {}
    return {**OTHER_SUBS.get(sid, {}), **own}.get(sub & (OF_EVENT if sid == 0x86 else OF_NAME), "")


def refusal(code: int, unknown: str) -> str:
    """The name of a negative response code, or what it is called without one."""
    return {**OTHER_NEGATIVE, **NEGATIVE}.get(code) or name_in(NEGATIVE_RANGES, code, unknown)


def negative_name(code: int) -> str:
    """A negative response code by its name and number."""
    return f"{refusal(code, 'negative response')} (0x{code:02X})"


def subs_in_words(sid: int, subs: dict[int, str]) -> str:
    """The sub-functions of a service as its row of the table has them."""
    if sid == 0x27:
        return "odd requestSeed, even sendKey"
    return ", ".join(f"{sub:02X} {name}" for sub, name in subs.items())


def other_subs(sid: int, subs: dict[int, str]) -> str:
    """The sub-functions of a service that aren't in the unit, as text."""
    if sid == 0x27:
        return f"27 {min(subs):02X} to {max(subs):02X} ({subs_in_words(sid, subs)})"
    return ", ".join(f"{sid:02X} {sub:02X} {name}" for sub, name in subs.items())


def other_codes() -> list[str]:
    """The negative response codes that aren't of the unit, as text, by their numbers."""
    single = {code: f"0x{code:02X} {name}" for code, name in OTHER_NEGATIVE.items()}
    together = {first: f"0x{first:02X} to 0x{last:02X} {name}" for first, last, name in NEGATIVE_RANGES}
    return [text for _, text in sorted({**single, **together}.items())]


def table() -> str:
    """The tables of docs/VIEW.md, as text."""
    rows = ["| Service | Name | Sub-functions |", "|---|---|---|"]
    rows += [f"| {sid:02X} | {it.name} | {subs_in_words(sid, it.subs)} |" for sid, it in SERVICES.items()]
    rows += ["", f"Not in the unit: {', '.join(f'{sid:02X} {name}' for sid, name in OTHERS.items())}."]
    rows += ["", f"Sub-functions not in the unit: {', '.join(other_subs(sid, subs) for sid, subs in OTHER_SUBS.items())}."]
    rows += ["", "| NRC | Name |", "|---|---|"]
    rows += [f"| 0x{code:02X} | {name} |" for code, name in NEGATIVE.items()]
    rows += ["", f"NRCs not of the unit: {', '.join(other_codes())}."]
    return "".join(f"{it}\n" for it in rows)


if __name__ == "__main__":
    print(table(), end="")
